//! Cases with more output entries than pixels: almost every cluster is put out twice, once when
//! only discarded pixels surround it and once after cluster 0 has gone into it. They are too rare
//! to be met by chance, so known ones are varied for as long as they stay crowded.

use super::worked::{B, K, N, W};
use crate::case::{Case, KeyingAction, Rgba, Settings};
use crate::model::{self, Reading};
use crate::rng::Rng;

/// Like the key at shift 4, and like `FURTHER`, which is not like the key.
const NEAR: Rgba = [224, 16, 240, 255];
const FURTHER: Rgba = [208, 32, 224, 255];
const GREY: Rgba = [100, 100, 100, 255];

/// Three columns and four rows, 13 entries.
const SMALL: [Rgba; 12] = [
    NEAR, K, GREY, //
    GREY, NEAR, W, //
    FURTHER, FURTHER, N, //
    NEAR, K, N, //
];

/// Three columns and six rows, 19 entries.
const TALL: [Rgba; 18] = [
    N, K, GREY, //
    GREY, N, FURTHER, //
    K, GREY, K, //
    FURTHER, N, NEAR, //
    K, B, K, //
    B, N, NEAR, //
];

/// How many changes are tried; about one in eight is kept.
const CHANGES: u32 = 60;

/// A crowded case.
pub fn case(rng: &mut Rng) -> Case {
    let start = rng.pick(&[&SMALL[..], &TALL[..]]);
    let settings = Settings {
        good_min_area: 0,
        deepen_diff: -1,
        hollow_neighbours: rng.below(4),
        key: K,
        keying_action: KeyingAction::Discard,
        ..Settings::default()
    };
    let mut case = Case::of_pixels(settings, 3, start.len() as u32 / 3, start);
    for _ in 0..CHANGES {
        let changed = change_pixel(rng, &case);
        if is_crowded(&changed) {
            case = changed;
        }
    }
    case
}

fn is_crowded(case: &Case) -> bool {
    model::answer(case, Reading::Right).m() > case.area()
}

fn change_pixel(rng: &mut Rng, case: &Case) -> Case {
    let [r, g, b, ..] = rng.bits().to_le_bytes();
    let color = rng.pick(&[K, N, B, W, NEAR, FURTHER, GREY, [r, g, b, 255]]);
    let mut changed = case.clone();
    changed.set_pixel(rng.below(case.area()), color);
    changed
}
