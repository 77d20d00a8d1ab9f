//! Small images.

use judge::case::Case;
use judge::cases::{self, Kind, TINY_CASES};
use judge::rng::Rng;

use super::{lending, Difference, Room};

/// Sets the draws for the lent buffers apart from those for the cases.
const LENDING: u64 = 0x5eed_0001;

/// Compares the small case at `index`.
pub fn compare(seed: u64, index: u64, count: u64, room: Room) -> Result<(), Difference> {
    let case = case(seed, index, count);
    let rng = &mut Rng::for_case(seed ^ LENDING, index);
    let lent = lending::enough(rng, case.area() as usize, room);
    super::accepted(&case, &lending::call(rng, &case), &lent)
}

/// Of `count` small cases the first half goes through the enumeration `tiny` from its beginning,
/// smallest images first, as far as it reaches; the others are random, of all kinds.
fn case(seed: u64, index: u64, count: u64) -> Case {
    let random = |kind| cases::case(kind, seed, index);
    if index < (count / 2).min(TINY_CASES) {
        return random(Kind::Tiny);
    }
    match index % 64 {
        0 => random(Kind::Crowded),
        1 | 2 => random(Kind::Large),
        _ => cases::mixed(seed, index),
    }
}
