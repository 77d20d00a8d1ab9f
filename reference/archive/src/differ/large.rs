//! Images of 10,000 to 65,000 pixels.

use judge::case::{Case, KeyingAction, Settings, HIERARCHICAL_MAX as MAX, MAX_PIXELS, NO_KEY};
use judge::rng::Rng;

use super::{lending, Difference, Room};
use crate::images::{Texture, KEY};

const LEAST: u32 = 10_000;
const MOST: u32 = MAX_PIXELS as u32;

/// The largest `hierarchical` for a checkerboard whose key pixels are kept: below the number of
/// them, so that cluster 0 is put out. Otherwise it goes from cluster to cluster, for which the
/// original takes seconds on the smallest of these images and minutes on the largest.
const MOST_KEPT: u32 = 2_000;

/// Compares the large case at `index`.
pub fn compare(seed: u64, index: u64, room: Room) -> Result<(), Difference> {
    let rng = &mut Rng::for_case(seed, index);
    let case = case(rng);
    let lent = lending::enough(rng, case.area() as usize, room);
    super::accepted(&case, &lending::call(rng, &case), &lent)
}

/// A random large case.
pub fn case(rng: &mut Rng) -> Case {
    let texture = rng.pick(&Texture::ALL);
    let mut settings = settings(rng);
    if texture == Texture::KeyNoise && keeps_key(&settings) {
        settings.hierarchical = settings.hierarchical.min(MOST_KEPT);
    }
    let (width, height) = size(rng);
    let pixels = texture.draw(rng, width, height);
    Case::of_pixels(settings, width, height, &pixels)
}

/// A random size; one in eight has as many pixels as its width or height allows.
fn size(rng: &mut Rng) -> (u32, u32) {
    let area = if rng.percent(12) {
        MOST
    } else {
        rng.range(LEAST, MOST)
    };
    let one = if rng.percent(10) {
        rng.range(1, 20)
    } else {
        rng.range(50, 400)
    };
    let other = area.div_ceil(one).min(MOST / one);
    if rng.percent(50) {
        (one, other)
    } else {
        (other, one)
    }
}

fn keeps_key(settings: &Settings) -> bool {
    settings.key == KEY && settings.keying_action == KeyingAction::Keep
}

fn settings(rng: &mut Rng) -> Settings {
    if rng.percent(20) {
        return Settings::default();
    }
    Settings {
        is_same_color_a: rng.pick(&[4, 4, 4, 0, 2, 3, 5, 6]),
        is_same_color_b: rng.pick(&[1, 1, 1, 0, 2, 4, 16, -1]),
        hierarchical: rng.pick(&[MAX, MAX, MAX, MAX, MAX - 1, 0, 1, 30, 1_000]),
        good_min_area: rng.pick(&[16, 16, 0, 1, 4, 100]),
        good_max_area: rng.pick(&[65_536, 65_536, 65_536, 1_000, 50]),
        hollow_neighbours: rng.pick(&[1, 1, 0, 2, 4]),
        deepen_diff: rng.pick(&[64, 64, 0, -1, 16, 150, 400]),
        key: if rng.percent(60) { KEY } else { NO_KEY },
        keying_action: rng.pick(&[KeyingAction::Keep, KeyingAction::Discard]),
    }
}
