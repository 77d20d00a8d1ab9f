//! The seeded generator of cases. Each case depends on kind, seed and index alone, so that any
//! stretch of any kind can be made again.

mod crowded;
mod edge;
mod images;
mod settings;
mod tiny;
pub mod worked;

pub use tiny::TINY_CASES;

use crate::case::{Case, KeyingAction, Settings};
use crate::rng::Rng;
use images::{Palette, Texture};

/// What a case is made to show.
#[derive(Clone, Copy, Debug, PartialEq, Eq)]
pub enum Kind {
    Worked,
    Tiny,
    Random,
    Strip,
    Extreme,
    Nested,
    Edge,
    Isolated,
    Crowded,
    Large,
}

impl Kind {
    /// All kinds.
    pub const ALL: [Kind; 10] = [
        Kind::Worked,
        Kind::Tiny,
        Kind::Random,
        Kind::Strip,
        Kind::Extreme,
        Kind::Nested,
        Kind::Edge,
        Kind::Isolated,
        Kind::Crowded,
        Kind::Large,
    ];

    /// The name on the command line.
    pub fn name(self) -> &'static str {
        match self {
            Kind::Worked => "worked",
            Kind::Tiny => "tiny",
            Kind::Random => "random",
            Kind::Strip => "strip",
            Kind::Extreme => "extreme",
            Kind::Nested => "nested",
            Kind::Edge => "edge",
            Kind::Isolated => "isolated",
            Kind::Crowded => "crowded",
            Kind::Large => "large",
        }
    }

    /// What the kind holds, for the help.
    pub fn describe(self) -> &'static str {
        match self {
            Kind::Worked => "the worked images H1 to H10, by index",
            Kind::Tiny => "all images up to 3×3 over small alphabets, by index",
            Kind::Random => "images up to 8×8 of every texture, common settings",
            Kind::Strip => "images of one row or one column",
            Kind::Extreme => "small images under settings at the ends of their ranges",
            Kind::Nested => "shapes inside shapes, which deepen and have holes",
            Kind::Edge => "a limit exactly where a cluster of the image meets it, or one beside",
            Kind::Isolated => "clusters between discarded pixels",
            Kind::Crowded => "more output entries than pixels",
            Kind::Large => "images of 10×10 to 30×30",
        }
    }

    /// How many cases the kind has, where it is an enumeration.
    pub fn total(self) -> Option<u64> {
        match self {
            Kind::Worked => Some(worked::all().len() as u64),
            Kind::Tiny => Some(TINY_CASES),
            _ => None,
        }
    }

    /// The kind of that name.
    pub fn named(name: &str) -> Option<Kind> {
        Kind::ALL.into_iter().find(|kind| kind.name() == name)
    }
}

/// The kinds of `mixed`, each as often as it stands here.
const MIX: [Kind; 9] = {
    use Kind::*;
    [
        Tiny, Random, Random, Strip, Extreme, Nested, Edge, Isolated, Isolated,
    ]
};

/// The `index`-th case of a mix of the small kinds.
pub fn mixed(seed: u64, index: u64) -> Case {
    let mut rng = Rng::for_case(seed, index);
    let kind = rng.pick(&MIX);
    make(kind, &mut rng)
}

/// The `index`-th case of a kind. The enumerations go by the index alone.
pub fn case(kind: Kind, seed: u64, index: u64) -> Case {
    match kind {
        Kind::Worked => worked::case(index),
        Kind::Tiny => tiny::case(index),
        _ => make(kind, &mut Rng::for_case(seed, index)),
    }
}

/// A random case of a given size.
pub fn sized(seed: u64, index: u64, width: u32, height: u32) -> Case {
    any_texture(&mut Rng::for_case(seed, index), width, height)
}

fn make(kind: Kind, rng: &mut Rng) -> Case {
    match kind {
        Kind::Worked => worked::case(rng.bits()),
        Kind::Tiny => tiny::case(rng.bits()),
        Kind::Random => random(rng),
        Kind::Strip => strip(rng),
        Kind::Extreme => extreme(rng),
        Kind::Nested => nested(rng),
        Kind::Edge => edge(rng),
        Kind::Isolated => isolated(rng),
        Kind::Crowded => crowded::case(rng),
        Kind::Large => large(rng),
    }
}

fn random(rng: &mut Rng) -> Case {
    let (width, height) = (rng.range(1, 8), rng.range(1, 8));
    any_texture(rng, width, height)
}

fn large(rng: &mut Rng) -> Case {
    let (width, height) = (rng.range(10, 30), rng.range(10, 30));
    any_texture(rng, width, height)
}

fn any_texture(rng: &mut Rng, width: u32, height: u32) -> Case {
    let palette = Palette::random(rng);
    let texture = Texture::random(rng);
    let settings = settings::common(rng, &palette);
    images::draw(rng, settings, width, height, &palette, texture)
}

fn strip(rng: &mut Rng) -> Case {
    let length = rng.range(1, 24);
    let (width, height) = rng.pick(&[(1, length), (length, 1)]);
    let palette = Palette::random(rng);
    let texture = rng.pick(&[Texture::Noise, Texture::Smear, Texture::Gradient]);
    let settings = settings::common(rng, &palette);
    images::draw(rng, settings, width, height, &palette, texture)
}

fn extreme(rng: &mut Rng) -> Case {
    let (width, height) = (rng.range(1, 6), rng.range(1, 6));
    let palette = Palette::random(rng);
    let texture = Texture::random(rng);
    let settings = settings::extreme(rng, &palette);
    images::draw(rng, settings, width, height, &palette, texture)
}

fn nested(rng: &mut Rng) -> Case {
    let (width, height) = (rng.range(3, 12), rng.range(3, 12));
    let palette = Palette::random(rng);
    let texture = rng.pick(&[Texture::Rings, Texture::Rectangles]);
    let settings = settings::deepening(rng, &palette);
    images::draw(rng, settings, width, height, &palette, texture)
}

fn edge(rng: &mut Rng) -> Case {
    let base = if rng.percent(70) {
        nested(rng)
    } else {
        random(rng)
    };
    edge::case(rng, base)
}

fn isolated(rng: &mut Rng) -> Case {
    let (width, height) = (rng.range(2, 9), rng.range(2, 9));
    let palette = Palette::keyed(rng);
    let base = if rng.percent(50) {
        settings::common(rng, &palette)
    } else {
        settings::deepening(rng, &palette)
    };
    let (is_same_color_a, is_same_color_b) = rng.pick(&[(4, 1), (4, 1), (4, 2), (3, 2), (0, 20)]);
    let settings = Settings {
        is_same_color_a,
        is_same_color_b,
        keying_action: KeyingAction::Discard,
        key: palette.key(),
        ..base
    };
    images::draw(rng, settings, width, height, &palette, Texture::Islands)
}
