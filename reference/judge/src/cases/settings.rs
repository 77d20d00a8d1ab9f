//! Random settings.

use super::images::Palette;
use crate::case::{KeyingAction, Settings, HIERARCHICAL_MAX as MAX, NO_KEY};
use crate::rng::Rng;

/// Settings from the ranges in which small images show something.
pub fn common(rng: &mut Rng, palette: &Palette) -> Settings {
    Settings {
        is_same_color_a: rng.pick(&[4, 4, 4, 0, 0, 1, 2, 3, 5, 6, 7]),
        is_same_color_b: rng.pick(&[1, 1, 1, 0, 0, 2, 3, 8, 40, -1]),
        hierarchical: rng.pick(&[MAX, MAX, MAX, MAX, MAX - 1, 0, 1, 2, 3, 5, 9, 20]),
        good_min_area: rng.pick(&[0, 0, 0, 1, 1, 2, 4, 7, 16]),
        good_max_area: rng.pick(&[65_536, 65_536, 65_536, 2, 4, 9, 20]),
        hollow_neighbours: rng.pick(&[1, 1, 1, 0, 2, 3]),
        deepen_diff: rng.pick(&[64, 64, 0, -1, 1, 16, 150, 400]),
        key: if rng.percent(50) {
            palette.key()
        } else {
            NO_KEY
        },
        keying_action: rng.pick(&[KeyingAction::Keep, KeyingAction::Discard]),
    }
}

/// Settings under which most images deepen.
pub fn deepening(rng: &mut Rng, palette: &Palette) -> Settings {
    Settings {
        is_same_color_a: rng.pick(&[4, 4, 0, 3]),
        is_same_color_b: rng.pick(&[1, 1, 0, 2]),
        hierarchical: if rng.percent(85) {
            MAX
        } else {
            rng.range(1, 30)
        },
        good_min_area: rng.pick(&[0, 0, 0, 1, 2, 4]),
        good_max_area: rng.pick(&[65_536, 65_536, 65_536, 16]),
        hollow_neighbours: rng.pick(&[1, 1, 0, 2, 4]),
        deepen_diff: rng.pick(&[0, -1, 8, 64, 100]),
        ..common(rng, palette)
    }
}

/// Settings half of which stand at the ends of their ranges.
pub fn extreme(rng: &mut Rng, palette: &Palette) -> Settings {
    let usual = common(rng, palette);
    Settings {
        is_same_color_a: end_or(rng, &[0, 7], usual.is_same_color_a),
        is_same_color_b: end_or(rng, &SIGNED_ENDS, usual.is_same_color_b),
        hierarchical: end_or(rng, &UNSIGNED_ENDS, usual.hierarchical),
        good_min_area: end_or(rng, &UNSIGNED_ENDS, usual.good_min_area),
        good_max_area: end_or(rng, &UNSIGNED_ENDS, usual.good_max_area),
        hollow_neighbours: end_or(rng, &UNSIGNED_ENDS, usual.hollow_neighbours),
        deepen_diff: end_or(rng, &SIGNED_ENDS, usual.deepen_diff),
        ..usual
    }
}

const SIGNED_ENDS: [i32; 10] = [
    i32::MIN,
    i32::MIN + 1,
    -256,
    -1,
    0,
    255,
    764,
    765,
    i32::MAX - 1,
    i32::MAX,
];

const UNSIGNED_ENDS: [u32; 6] = [0, 1, 1 << 31, (1 << 31) - 1, u32::MAX - 1, u32::MAX];

fn end_or<T: Copy>(rng: &mut Rng, ends: &[T], usual: T) -> T {
    if rng.percent(50) {
        rng.pick(ends)
    } else {
        usual
    }
}
