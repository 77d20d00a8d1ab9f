//! One call of the library, held against what it must answer and leave. Each buffer is lent as a
//! block of memory of its own; to valgrind, what a call has no reason to read is undefined.

use std::fmt::{Debug, Display};

use super::marks::Marks;
use crate::buffers::Buffers;
use crate::call::{self, Answer, Call};
use crate::memcheck;
use crate::refusals;
use crate::sheet::Sheet;

/// What differs, line by line, after the name of the function.
pub type What = Vec<String>;

/// The memory that a call is lent: numbers, and the bytes of a picture or of a stored sheet.
#[derive(Clone, Copy)]
pub struct Memory<'a> {
    pub buffers: &'a Buffers,
    pub bytes: &'a [u8],
}

/// A run.
pub fn run(call: &Call, lent: &Buffers, answer: Answer, after: &Buffers) -> Result<(), What> {
    Memory::without_bytes(lent).hold(
        "color_clusters_run",
        |buffers, _| with_image(call, answer, |call| call::run(call, buffers)),
        answer,
        Memory::without_bytes(after),
        Marks::of_run(call, answer),
    )
}

/// A run with painting.
pub fn run_and_paint(call: &Call, lent: Memory, answer: Answer, after: Memory) -> Result<(), What> {
    lent.hold(
        "color_clusters_run_and_paint",
        |buffers, picture| {
            with_image(call, answer, |call| {
                call::run_and_paint(call, buffers, picture)
            })
        },
        answer,
        after,
        Marks::of_run(call, answer),
    )
}

/// Makes a call with a copy of its image, which a refused call has no reason to read.
fn with_image(call: &Call, answer: Answer, make: impl FnOnce(&Call) -> Answer) -> Answer {
    let image = call.image.to_vec();
    if answer.number != 0 {
        memcheck::undefined(&image);
    }
    make(&Call {
        image: &image,
        ..*call
    })
}

/// A painting, which must give `picture` where `number` is 0.
pub fn paint(
    sheet: Sheet,
    lent: Memory,
    number: u32,
    picture: impl FnOnce() -> Vec<u8>,
) -> Result<(), What> {
    lent.hold_bytes(
        "color_clusters_paint",
        |buffers, picture| call::paint(sheet, buffers, picture),
        number,
        picture,
        Marks::of_painting(sheet, number),
    )
}

/// The check of a row, by the rules.
pub fn row_check(size: (u32, u32), picture: &[u8], y: u32) -> Result<(), What> {
    let lent = Memory {
        buffers: &Buffers::default(),
        bytes: picture,
    };
    lent.hold(
        "color_clusters_row_check",
        |_, picture| call::row_check(size, picture, y),
        refusals::row_check(size, picture.len(), y),
        lent,
        Marks::default(),
    )
}

/// A storing, by the rules.
pub fn store(sheet: Sheet, lent: Memory) -> Result<(), What> {
    let number = refusals::store(sheet, lent.buffers, lent.bytes.len());
    lent.hold_bytes(
        "color_clusters_store",
        |buffers, destination| call::store(sheet, buffers, destination),
        number,
        || sheet.stored(lent.buffers),
        Marks::of_storing(sheet, number),
    )
}

impl<'a> Memory<'a> {
    fn without_bytes(buffers: &'a Buffers) -> Self {
        Self {
            buffers,
            bytes: &[],
        }
    }

    /// Makes a call in a copy of this memory, and compares its answer and all of the copy.
    fn hold<A: PartialEq + Debug>(
        self,
        name: &str,
        call: impl FnOnce(&mut Buffers, &mut [u8]) -> A,
        answer: A,
        after: Memory,
        marks: Marks,
    ) -> Result<(), What> {
        let (mut buffers, mut bytes) = (self.buffers.clone(), self.bytes.to_vec());
        marks.before(&buffers, &bytes);
        let answered = call(&mut buffers, &mut bytes);
        marks.after(&buffers, &bytes);
        if answered == answer && buffers == *after.buffers && bytes == after.bytes {
            return Ok(());
        }
        let mut what = vec![format!("{name}:")];
        if answered != answer {
            what.push(format!("it answers {answered:?}, not {answer:?}"));
        }
        for ((name, found), (_, wanted)) in buffers.named().into_iter().zip(after.buffers.named()) {
            what.extend(first_difference(name, found, wanted));
        }
        what.extend(first_difference("bytes", &bytes, after.bytes));
        Err(what)
    }

    /// As `hold`, for a call that must write `written` over the bytes where `number` is 0, and
    /// nothing else.
    fn hold_bytes(
        self,
        name: &str,
        call: impl FnOnce(&mut Buffers, &mut [u8]) -> u32,
        number: u32,
        written: impl FnOnce() -> Vec<u8>,
        marks: Marks,
    ) -> Result<(), What> {
        let bytes = if number == 0 {
            written()
        } else {
            self.bytes.to_vec()
        };
        let after = Memory {
            bytes: &bytes,
            ..self
        };
        self.hold(name, call, number, after, marks)
    }
}

/// Says at which place two buffers of one length differ first.
fn first_difference<T: PartialEq + Display>(
    name: &str,
    found: &[T],
    wanted: &[T],
) -> Option<String> {
    let place = (0..found.len()).find(|&place| found[place] != wanted[place])?;
    Some(format!(
        "{name}[{place}] is {}, not {}",
        found[place], wanted[place]
    ))
}

#[cfg(test)]
mod tests {
    use super::*;

    #[test]
    fn the_first_difference_is_found() {
        assert_eq!(first_difference("labels", &[1, 2, 3], &[1, 2, 3]), None);
        assert_eq!(
            first_difference("labels", &[1, 2, 3], &[1, 4, 5]).as_deref(),
            Some("labels[1] is 2, not 4")
        );
    }

    /// What is said of a call on 7, 7, .. that must answer 0 and leave all as it was.
    fn said(call: impl FnOnce(&mut Buffers, &mut [u8]) -> u32) -> Result<(), What> {
        let lent = Memory {
            buffers: &Buffers::exact(1).filled(7),
            bytes: &[7; 4],
        };
        lent.hold("call", call, 0, lent, Marks::default())
    }

    #[test]
    fn every_change_is_a_difference() {
        assert_eq!(said(|_, _| 0), Ok(()));
        let answered = said(|_, _| 6).expect_err("a wrong answer");
        assert_eq!(answered, ["call:", "it answers 6, not 0"]);
        for buffer in 0..5 {
            let changed = said(|buffers, _| {
                *buffers.each_mut()[buffer].last_mut().expect("a number") = 8;
                0
            });
            assert!(changed.expect_err("a changed number")[1].ends_with("is 8, not 7"));
        }
        let painted = said(|_, bytes| {
            bytes[3] = 8;
            0
        });
        assert_eq!(painted.expect_err("a byte")[1], "bytes[3] is 8, not 7");
    }
}
