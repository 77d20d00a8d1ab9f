//! The comparison of the model with the original.

use std::ops::Range;

use crate::case::Case;
use crate::model::{self, Reading};
use crate::{original, parallel};

/// What a comparison found.
pub struct Comparison {
    pub compared: u64,
    pub differ: u64,
    /// The first case on which the two disagree.
    pub first: Option<Case>,
}

/// Compares the model with the original on the cases at `indices`, in the whole answer and in the
/// labels with which stage 1 ends.
pub fn compare(indices: Range<u64>, case: impl Fn(u64) -> Case + Sync) -> Comparison {
    let compared = indices.end - indices.start;
    let parts = parallel::over(indices, |part| {
        let mut different = part.map(&case).filter(|case| !agrees(case)).peekable();
        let first = different.peek().cloned();
        (first, different.count() as u64)
    });
    Comparison {
        compared,
        differ: parts.iter().map(|(_, differ)| differ).sum(),
        first: parts.into_iter().find_map(|(first, _)| first),
    }
}

fn agrees(case: &Case) -> bool {
    model::answer(case, Reading::Right) == original::answer(case)
        && model::stage_1_labels(case) == original::stage_1_labels(case)
}
