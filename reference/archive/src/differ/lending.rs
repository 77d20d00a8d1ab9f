//! What the buffers hold when they are lent.

use judge::case::{Case, KeyingAction};
use judge::rng::Rng;

use crate::buffers::{Buffers, Lengths};
use crate::call::Call;

/// How many numbers a buffer may have more than it is asked to have.
const MORE: [usize; 8] = [0, 0, 1, 2, 3, 8, 21, 50];

/// How long the buffers of accepted runs are.
#[derive(Clone, Copy, Debug, PartialEq, Eq)]
pub enum Room {
    /// Just as long as asked.
    Exact,
    /// Most of them longer.
    Ample,
}

/// The numbers for Discard.
const DISCARDS: [u32; 6] = [1, 2, 255, 256, 1 << 31, u32::MAX];

/// Buffers for an image of `pixels`, none of them short.
pub fn enough(rng: &mut Rng, pixels: usize, room: Room) -> Buffers {
    let mut lengths = Lengths::exact(pixels);
    for length in lengths.each_mut() {
        let more = rng.pick(&MORE);
        if room == Room::Ample {
            *length += more;
        }
    }
    any_content(rng, lengths)
}

/// Buffers of the given lengths that hold zeros, one number, numbers that could be labels or
/// links, or any numbers.
pub fn any_content(rng: &mut Rng, lengths: Lengths) -> Buffers {
    let buffers = Buffers::of(lengths);
    let likely = lengths.labels as u32 + 2;
    match rng.below(5) {
        0 => buffers,
        1 => buffers.filled(u32::MAX),
        2 => buffers.filled(rng.bits() as u32),
        3 => buffers.filled_by(|| rng.below(likely)),
        _ => buffers.filled_by(|| rng.bits() as u32),
    }
}

/// Bytes of which no two in a row are equal.
pub fn bytes(length: usize) -> Vec<u8> {
    (0..length).map(|place| (37 * place + 11) as u8).collect()
}

/// The call that a case asks for, with any of the numbers that mean its action.
pub fn call<'a>(rng: &mut Rng, case: &'a Case) -> Call<'a> {
    let action = match case.settings.keying_action {
        KeyingAction::Keep => 0,
        KeyingAction::Discard => rng.pick(&DISCARDS),
    };
    Call {
        action,
        ..Call::of(case)
    }
}
