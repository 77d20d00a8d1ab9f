//! The label of each pixel.

use super::{Model, Reading};
use crate::answer::Cluster;
use crate::case::{Case, KeyingAction, CHANNELS};

/// The pixels taken before `pixel` that decide its label; none where they lie off the image.
struct Corner {
    pixel: u32,
    left: Option<u32>,
    up: Option<u32>,
    up_left: Option<u32>,
}

impl Model<'_> {
    /// Takes all pixels, row by row; then each residue is set to its sum.
    pub(super) fn stage_1(&mut self) {
        for pixel in 0..self.case.area() {
            self.take(self.corner(pixel));
        }
        if !self.reads(Reading::ResidueCollectsInStageOne) {
            for cluster in &mut self.clusters {
                cluster.residue = cluster.sum;
            }
        }
    }

    fn corner(&self, pixel: u32) -> Corner {
        let wraps = self.reads(Reading::LeftWrapsAround);
        let back = |steps: u32| pixel.checked_sub(steps).filter(|_| wraps);
        Corner {
            pixel,
            left: self.beside(pixel, -1, 0).or(back(1)),
            up: self.beside(pixel, 0, -1),
            up_left: self.beside(pixel, -1, -1).or(back(self.case.width + 1)),
        }
    }

    fn take(&mut self, corner: Corner) {
        let (left, up) = self.step_1(&corner);
        if self.is_key(corner.pixel) {
            if self.keeps_key_pixels() {
                self.add(corner.pixel, 0);
            }
            return;
        }
        let k = match self.joined(&corner, left, up) {
            Some(k) => k,
            None => self.fresh(),
        };
        self.labels[corner.pixel as usize] = k;
        self.add(corner.pixel, k);
    }

    /// Step 1: joins the clusters of left and up where the pixel shows that they are one. Gives the
    /// numbers by which the later steps know left's and up's clusters.
    fn step_1(&mut self, corner: &Corner) -> (u32, u32) {
        let left = corner.left.map_or(0, |p| self.label(p));
        let up = corner.up.map_or(0, |p| self.label(p));
        if left == up || !self.corner_is_one(corner) || self.step_1_spares(corner, left, up) {
            return (left, up);
        }
        let left_goes = self.left_goes(corner.pixel, left, up);
        let (from, to) = if left_goes { (left, up) } else { (up, left) };
        self.combine(from, to);
        if self.next_falls(left_goes, from) {
            self.next -= 1;
        }
        match (self.reading, corner.left, corner.up) {
            (Reading::OldLabels, ..) => (left, up),
            (Reading::LabelsReadAgain, Some(l), Some(u)) => (self.label(l), self.label(u)),
            _ => (to, to),
        }
    }

    fn corner_is_one(&self, corner: &Corner) -> bool {
        let left_like_up = self.like(corner.left, corner.up)
            || matches!(
                self.reading,
                Reading::StepOneForgetsLeftLikeUp | Reading::PlainComponents
            );
        let pixel_like_both = self.like_pixel(corner, corner.left)
            && self.like_pixel(corner, corner.up)
            || self.reads(Reading::StepOneForgetsThePixel);
        left_like_up && pixel_like_both
    }

    fn step_1_spares(&self, corner: &Corner, left: u32, up: u32) -> bool {
        match self.reading {
            Reading::StepOneSparesClusterZero => left == 0 || up == 0,
            Reading::StepOneSparesKeyPixels => self.is_key(corner.pixel),
            _ => false,
        }
    }

    /// The smaller cluster goes, left on equal counts.
    fn left_goes(&self, pixel: u32, left: u32, up: u32) -> bool {
        let count = |k: u32| {
            let discarded = if k == 0 && self.reads(Reading::DiscardedCounted) {
                self.discarded_before(pixel)
            } else {
                0
            };
            self.count(k) + discarded
        };
        let (left, up) = (count(left), count(up));
        match self.reading {
            Reading::LeftAlwaysIntoUp => true,
            Reading::UpAlwaysIntoLeft => false,
            Reading::LargerIntoSmaller => left > up,
            Reading::EqualUpIntoLeft => left < up,
            _ => left <= up,
        }
    }

    fn discarded_before(&self, pixel: u32) -> u32 {
        let is_discarded = |&p: &u32| self.is_key(p) && !self.keeps_key_pixels();
        (0..pixel).filter(is_discarded).count() as u32
    }

    fn next_falls(&self, left_went: bool, from: u32) -> bool {
        let at_slot_count = self.next as usize == self.clusters.len();
        from + 1 == self.next
            && (left_went || self.reads(Reading::NextFallsWhenUpWent))
            && (at_slot_count || self.reads(Reading::NextFallsBelowSlotCount))
            && !self.reads(Reading::NextNeverFalls)
    }

    /// Steps 3 and 4: the cluster that the pixel joins, which may be 0.
    fn joined(&self, corner: &Corner, left: u32, up: u32) -> Option<u32> {
        let like_up_left = self.like_pixel(corner, corner.up_left);
        let asks = like_up_left || self.reads(Reading::PlainComponents);
        let joins_up = (asks && self.like_pixel(corner, corner.up)).then_some(up);
        let joins_left = (asks && self.like_pixel(corner, corner.left)).then_some(left);
        let joined = if self.reads(Reading::StepFourFirst) {
            joins_left.or(joins_up)
        } else {
            joins_up.or(joins_left)
        };
        match self.reading {
            Reading::NearKeyToNewCluster => joined.filter(|&k| k != 0),
            Reading::JoinsUpLeft if like_up_left => {
                joined.or_else(|| corner.up_left.map(|p| self.label(p)))
            }
            _ => joined,
        }
    }

    /// Step 5: a fresh cluster takes slot `next`.
    fn fresh(&mut self) -> u32 {
        let k = self.next;
        if k as usize == self.clusters.len() {
            self.clusters.push(Cluster::default());
        } else {
            *self.cluster_mut(k) = Cluster::default();
        }
        self.next += 1;
        k
    }

    fn is_key(&self, p: u32) -> bool {
        let (pixel, key) = (self.case.pixel(p), self.case.settings.key);
        let channels = if self.reads(Reading::KeyIgnoresAlpha) {
            CHANNELS - 1
        } else {
            CHANNELS
        };
        self.keying_on() && pixel[..channels] == key[..channels]
    }

    fn keeps_key_pixels(&self) -> bool {
        match self.reading {
            Reading::KeepAsDiscard => false,
            Reading::DiscardAsKeep => true,
            _ => self.case.settings.keying_action == KeyingAction::Keep,
        }
    }

    fn like_pixel(&self, corner: &Corner, other: Option<u32>) -> bool {
        self.like(Some(corner.pixel), other)
    }

    /// Whether two pixels are like; none is like nothing.
    fn like(&self, a: Option<u32>, b: Option<u32>) -> bool {
        let (Some(a), Some(b)) = (a, b) else {
            return false;
        };
        let channels = if self.reads(Reading::AlphaInLikeness) {
            CHANNELS
        } else {
            CHANNELS - 1
        };
        let (a, b) = (self.case.pixel(a), self.case.pixel(b));
        (0..channels).all(|c| like_channels(self.case, self.reading, a[c], b[c]))
    }
}

fn like_channels(case: &Case, reading: Reading, a: u8, b: u8) -> bool {
    let shift = case.settings.is_same_color_a;
    let limit = i64::from(case.settings.is_same_color_b);
    let distance = match reading {
        Reading::ShiftAfterDifference => i64::from(a.abs_diff(b) >> shift),
        _ => i64::from((a >> shift).abs_diff(b >> shift)),
    };
    match reading {
        Reading::LikenessStrict => distance < limit,
        Reading::LikenessUnsigned => distance <= limit.rem_euclid(1 << 32),
        _ => distance <= limit,
    }
}
