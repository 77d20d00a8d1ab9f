//! The images worked by hand (rules, section 13).

use crate::case::{Case, KeyingAction, Rgba, Settings};

pub const P: Rgba = [10, 20, 30, 255];
pub const B: Rgba = [0, 0, 0, 255];
pub const W: Rgba = [255, 255, 255, 255];
pub const K: Rgba = [255, 0, 255, 255];
pub const N: Rgba = [254, 0, 255, 255];
pub const T: Rgba = [0, 0, 0, 0];

/// The worked images by name; H3 comes with both values of `deepen_diff` that it names.
pub fn all() -> Vec<(&'static str, Case)> {
    let defaults = Settings::default;
    let h3 = || Settings {
        good_min_area: 0,
        ..defaults()
    };
    let keyed = |keying_action| Settings {
        key: K,
        keying_action,
        ..defaults()
    };
    let pair = |settings| Case::of_pixels(settings, 2, 1, &[B, W]);
    let square = |settings| Case::of_pixels(settings, 2, 2, &[K, K, B, N]);
    let deepen_diff = |deepen_diff| Settings {
        deepen_diff,
        ..h3()
    };
    let hierarchical = |hierarchical| Settings {
        hierarchical,
        ..h3()
    };
    vec![
        ("H1", Case::of_pixels(defaults(), 1, 1, &[P])),
        ("H2", Case::of_pixels(defaults(), 2, 2, &[P; 4])),
        ("H3", pair(h3())),
        ("H3, deepen_diff 764", pair(deepen_diff(764))),
        ("H4", pair(deepen_diff(765))),
        ("H5", pair(hierarchical(0))),
        ("H6", pair(hierarchical(1))),
        ("H7", Case::of_pixels(keyed(KeyingAction::Keep), 1, 1, &[K])),
        (
            "H8",
            Case::of_pixels(keyed(KeyingAction::Discard), 1, 1, &[K]),
        ),
        ("H9", square(keyed(KeyingAction::Discard))),
        ("H10", square(keyed(KeyingAction::Keep))),
    ]
}

/// The `index`-th worked image, round and round.
pub fn case(index: u64) -> Case {
    let mut all = all();
    let place = index % all.len() as u64;
    all.swap_remove(place as usize).1
}
