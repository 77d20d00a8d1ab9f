//! Which wrong readings answers tell from the right one.

use crate::case::Case;
use crate::model::{self, Reading};
use crate::parallel;
use crate::record::Recorded;

/// How many of the recorded answers the model does not give under `reading`.
pub fn count_differing(recorded: &[Recorded], reading: Reading) -> u64 {
    parallel::over(0..recorded.len() as u64, |part| {
        recorded[part.start as usize..part.end as usize]
            .iter()
            .filter(|(case, answer)| model::answer(case, reading) != *answer)
            .count() as u64
    })
    .into_iter()
    .sum()
}

/// Whether the answer to `case` tells `reading` from the right one.
pub fn tells(case: &Case, reading: Reading) -> bool {
    model::answer(case, reading) != model::answer(case, Reading::Right)
}
