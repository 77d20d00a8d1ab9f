//! The comparison of the library with the original, buffer by buffer.

pub mod damaged;
pub mod large;
pub mod refused;
pub mod small;
pub mod workers;

mod damage;
mod held;
mod lending;
mod marks;

use std::fmt;

use judge::answer;
use judge::case::Case;
use judge::original;

use crate::buffers::{Buffers, Lengths};
use crate::call::{Answer, Call};
use crate::refusals;
use crate::sheet::Sheet;
use held::{Memory, What};

pub use lending::Room;

/// Where the library did something else than it must.
#[derive(Debug)]
pub struct Difference {
    /// What was called.
    call: String,
    /// What differs.
    what: What,
}

impl Difference {
    /// Of a run that is lent buffers of these lengths, and perhaps a picture.
    fn of_run(call: &Call, lent: Lengths, picture: usize, what: What) -> Self {
        let line = call.line();
        let action = call.action;
        Self {
            call: format!("{line}\naction {action}; lent: {lent}, picture {picture}"),
            what,
        }
    }
}

impl fmt::Display for Difference {
    fn fmt(&self, out: &mut fmt::Formatter) -> fmt::Result {
        write!(out, "{}\n{}", self.call, self.what.join("\n"))
    }
}

/// Holds an accepted run, and the calls on what it leaves, against the original's answer.
pub fn accepted(case: &Case, call: &Call, lent: &Buffers) -> Result<(), Difference> {
    let right = original::answer(case);
    every_call(case, call, lent, &right)
        .map_err(|what| Difference::of_run(call, lent.lengths(), right.picture.len(), what))
}

fn every_call(
    case: &Case,
    call: &Call,
    lent: &Buffers,
    right: &answer::Answer,
) -> Result<(), What> {
    let sheet = Sheet::of(case, right);
    let answer = Answer {
        number: 0,
        n: sheet.n,
        m: sheet.m,
    };
    let buffers = &lent.after(right);
    held::run(call, lent, answer, buffers)?;

    let bytes = &lending::bytes(right.picture.len());
    let before = Memory {
        buffers: lent,
        bytes,
    };
    let painted = Memory {
        buffers,
        bytes: &right.picture,
    };
    held::run_and_paint(call, before, answer, painted)?;

    // The run was seen to leave just these numbers.
    let left = Memory { buffers, bytes };
    held::paint(sheet, left, 0, || right.picture.clone())?;
    for y in [0, case.height - 1, case.height] {
        held::row_check((case.width, case.height), &right.picture, y)?;
    }
    let bytes = &lending::bytes(sheet.stored_length());
    held::store(sheet, Memory { buffers, bytes })
}

/// Holds runs that must be refused with these numbers, without and with painting, against calls
/// that do nothing. Where a run without painting is not refused, it is not tried.
pub fn refused(
    call: &Call,
    lent: &Buffers,
    picture: &[u8],
    [without, with]: [u32; 2],
) -> Result<(), Difference> {
    let answer = |number| Answer {
        number,
        ..Answer::default()
    };
    let memory = Memory {
        buffers: lent,
        bytes: picture,
    };
    let run = if without == 0 {
        Ok(())
    } else {
        held::run(call, lent, answer(without), lent)
    };
    run.and_then(|()| held::run_and_paint(call, memory, answer(with), memory))
        .map_err(|what| Difference::of_run(call, lent.lengths(), picture.len(), what))
}

/// Holds painting, a row's check and storing over any numbers against the rules.
pub fn any_sheet(
    sheet: Sheet,
    buffers: &Buffers,
    picture: &[u8],
    y: u32,
    destination: &[u8],
) -> Result<(), Difference> {
    calls_over(sheet, buffers, picture, y, destination).map_err(|what| Difference {
        call: format!(
            "{sheet:?}, y {y}; lent: {}, picture {}, destination {}",
            buffers.lengths(),
            picture.len(),
            destination.len()
        ),
        what,
    })
}

fn calls_over(
    sheet: Sheet,
    buffers: &Buffers,
    picture: &[u8],
    y: u32,
    destination: &[u8],
) -> Result<(), What> {
    let lent = |bytes| Memory { buffers, bytes };
    let number = refusals::paint(sheet, buffers, picture.len());
    held::paint(sheet, lent(picture), number, || sheet.picture(buffers))?;
    held::row_check((sheet.width, sheet.height), picture, y)?;
    held::store(sheet, lent(destination))
}
