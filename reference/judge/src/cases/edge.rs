//! Cases in which a setting stands exactly where a cluster of the image meets it, or one beside.

use crate::answer::Slot;
use crate::case::{Case, HIERARCHICAL_MAX};
use crate::model::{self, Reading};
use crate::rng::Rng;

/// Moves one limit of `case` to what its own clusters have.
pub fn case(rng: &mut Rng, mut case: Case) -> Case {
    let table = model::answer(&case, Reading::Right).table;
    let standing: Vec<Slot> = table.into_iter().filter(|slot| slot[1] > 0).collect();
    if standing.is_empty() {
        return case;
    }
    let (one, other) = (rng.pick(&standing), rng.pick(&standing));
    let (area, step) = (one[1], rng.below(2));
    let settings = &mut case.settings;
    settings.hierarchical = HIERARCHICAL_MAX;
    match rng.below(4) {
        0 => settings.hierarchical = area - step,
        1 => settings.good_min_area = area - step,
        2 => settings.good_max_area = area + step,
        _ => settings.deepen_diff = difference(one, other) - step as i32,
    }
    case
}

fn difference(one: Slot, other: Slot) -> i32 {
    let average = |slot: Slot, channel: usize| (slot[6 + channel] / slot[10]) as i32;
    (0..3)
        .map(|channel| (average(one, channel) - average(other, channel)).abs())
        .sum()
}
