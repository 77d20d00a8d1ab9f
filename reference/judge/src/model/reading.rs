//! The readings of the rules that the model knows.

macro_rules! readings {
    ($($name:ident: $says:literal,)*) => {
        /// A reading of the rules: the right one, or one that is wrong in a single place.
        #[derive(Clone, Copy, Debug, PartialEq, Eq)]
        pub enum Reading {
            /// What the rules say.
            Right,
            $(#[doc = $says] $name,)*
        }

        impl Reading {
            /// All wrong readings, in the order of the rules.
            pub const WRONG: &'static [Reading] = &[$(Reading::$name),*];

            /// What the reading takes the rules to say.
            pub fn says(self) -> &'static str {
                match self {
                    Reading::Right => "what the rules say",
                    $(Reading::$name => $says,)*
                }
            }
        }
    };
}

readings! {
    // Likeness
    ShiftAfterDifference: "the shift is taken after the difference",
    AlphaInLikeness: "alpha counts in likeness",
    LikenessStrict: "like means a difference below `_b`",
    LikenessUnsigned: "a negative `_b` is read as a large number",
    LeftWrapsAround: "left of a row's first pixel is the last pixel of the row above",

    // Stage 1, step 1
    StepOneForgetsLeftLikeUp: "step 1 does not ask whether left is like up",
    StepOneForgetsThePixel: "step 1 does not ask whether the pixel is like both",
    StepOneSparesClusterZero: "step 1 spares cluster 0",
    StepOneSparesKeyPixels: "key pixels skip step 1",
    LeftAlwaysIntoUp: "left always goes into up",
    UpAlwaysIntoLeft: "up always goes into left",
    LargerIntoSmaller: "the larger cluster goes into the smaller",
    EqualUpIntoLeft: "on equal counts up goes into left",
    DiscardedCounted: "discarded pixels count for cluster 0 in step 1",
    NextNeverFalls: "next never falls",
    NextFallsWhenUpWent: "next falls also when up went",
    NextFallsBelowSlotCount: "next falls also where it is not the slot count",
    OldLabels: "steps 3 and 4 read the old labels",
    LabelsReadAgain: "steps 3 and 4 read the labels of left and up anew",

    // Stage 1, steps 2 to 5
    KeyIgnoresAlpha: "the key test ignores alpha",
    KeyingAlwaysOn: "keying is on also for the key (0,0,0,0)",
    KeyingOffForClearKey: "keying is off for every key with alpha 0",
    KeepAsDiscard: "Keep adds key pixels nowhere",
    DiscardAsKeep: "Discard adds key pixels to cluster 0",
    NearKeyToNewCluster: "a near-key pixel goes to a new cluster",
    PlainComponents: "plain connected components",
    StepFourFirst: "step 4 comes before step 3",
    JoinsUpLeft: "a pixel like up-left alone joins its cluster",

    // Merges
    FromListFirst: "from's list goes before to's",
    ListsInImageOrder: "lists are kept in the order of the image",
    ResidueCollectsInStageOne: "residues collect during stage 1, so that emptied clusters keep one",
    ResidueOnlyItsOwn: "a residue is only the pixels that the cluster began with",
    PlainClearsResidue: "a plain merge clears from's residue",
    PlainMovesHoles: "a plain merge moves the hole children",
    PlainDropsHoles: "a plain merge clears from's hole children",
    PlainAppendsHole: "a hollow plain merge appends a hole child",
    PlainAddsDepth: "a plain merge adds from's depth",
    PlainRaisesDepth: "a plain merge raises the depth by one",
    PlainClearsDepth: "a plain merge clears from's depth",
    PlainSetsMergedInto: "a plain merge sets `merged_into`",
    PlainKeepsRect: "a plain merge leaves from's rectangle",
    EmptyRectMerged: "the rectangle of an empty from is merged as one at the origin",
    RectFromOrigin: "rectangles grow from the origin",
    MergedIntoFollows: "`merged_into` follows when its target is merged on",
    DeepeningAddsResidue: "a deepening merge adds from's residue",
    DeepeningClearsFrom: "a deepening merge empties from",
    DepthAsMaximum: "depth is a maximum",
    DepthOfFrom: "a deepening merge raises from's depth",
    HolesPrepended: "hole children are prepended",
    HollowAlways: "every deepening merge appends a hole child",
    HollowStrict: "hollow means fewer than `hollow_neighbours` neighbours",
    HollowSigned: "`hollow_neighbours` is read as a signed number",
    HollowOffTheBorder: "a cluster at the border of the image is not hollow",

    // Stage 2
    OutputsByNumber: "with `hierarchical` 0 the outputs are by number alone",
    StartAreasOnly: "areas that arise meanwhile are left out",
    AreaAtPassStart: "a slot is taken if it had the area when the pass began",
    HierarchicalInclusive: "an area equal to `hierarchical` is put out",
    ZeroIsNeighbour: "cluster 0 counts as a neighbour",
    DiagonalNeighbours: "neighbours are found at the corners too",
    NeighboursWrapAround: "neighbours are found across the ends of rows",
    IsolatedWaitsUnderDiscard: "an isolated cluster under Discard waits as under Keep",
    IsolatedPutOutUnderKeep: "an isolated cluster under Keep is put out at once",
    PassedOverAgain: "a passed-over cluster is visited again before it grows",
    RankByResidue: "neighbours are ranked by residue averages",
    RoundedDifference: "the difference rounds the averages",
    AlphaInDifference: "alpha counts in the difference",
    LargestDifference: "the difference is the largest of the three",
    TieToLargerNumber: "a tie goes to the larger number",
    TieToFirstFound: "a tie goes to the neighbour found first",
    DeepensBelowTop: "clusters deepen under any `hierarchical`",
    MinInclusive: "min ≤ area deepens",
    MaxInclusive: "area ≤ max deepens",
    AreasSigned: "min and max are read as signed numbers",
    DiffInclusive: "a difference equal to `deepen_diff` deepens",
    DiffUnsigned: "a negative `deepen_diff` is read as a large number",
    BoundaryInclusive: "boundary ≤ area deepens, so that the boundary never matters",
    BoundaryAskedAtMinZero: "the boundary is asked also where min is 0",
    BoundaryInsideOnly: "sides off the image are not counted in the boundary",
    DeepenedNotPutOut: "a deepened cluster is not put out",
    NoThinning: "there is no thinning",
    ThinningDropsRepeats: "thinning also drops repeats",

    // Layout and picture
    RectInclusive: "right and bottom are those of the last pixel",
    InnerListEndsInZero: "the list of an inner cluster ends in 0",
    DiscardedLinked: "discarded pixels are linked to one another",
    PaintsForward: "the picture is painted from first to last",
    PaintsSums: "the picture is painted with the averages of the sums",
    PaintsRounded: "the picture is painted with rounded averages",
    PaintsOpaque: "the picture is opaque",
    PaintsOverTheImage: "the picture starts as the image",
}
