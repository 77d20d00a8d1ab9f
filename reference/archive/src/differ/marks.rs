//! Which part of the memory that is lent may matter to a call, and which part it must write, by
//! the rules. Valgrind is told so; without valgrind nothing of this has an effect.

use std::ops::Range;

use judge::answer::SLOT;

use crate::buffers::Buffers;
use crate::call::{Answer, Call};
use crate::memcheck;
use crate::sheet::{Sheet, RESIDUE};

/// The checks that read lengths, sizes and counts alone.
const BEFORE_READING: Range<u32> = 1..7;

/// What painting and storing have no reason to read of a slot.
const UNPAINTED: &[Range<usize>] = &[2..RESIDUE, RESIDUE + 5..SLOT];
const UNSTORED: &[Range<usize>] = &[2..RESIDUE, RESIDUE..SLOT];

/// So many numbers from the front of labels, links, table, outputs and work.
type Fronts = [usize; 5];

/// What a call may read, but for its image, and must write.
#[derive(Clone, Copy, Default)]
pub struct Marks {
    reads: Fronts,
    /// The numbers of each slot that is read which it may not read all the same.
    unread: &'static [Range<usize>],
    writes: Fronts,
    writes_bytes: bool,
}

impl Marks {
    /// Of a run, with painting or without: it reads no number that is lent.
    pub fn of_run(call: &Call, answer: Answer) -> Self {
        if answer.number != 0 {
            return Self::default();
        }
        let sheet = Sheet {
            width: call.width,
            height: call.height,
            n: answer.n,
            m: answer.m,
        };
        let [labels, links, table, outputs, _] = fronts(sheet);
        Self {
            writes: [labels, links, table, outputs, usize::MAX],
            writes_bytes: true,
            ..Self::default()
        }
    }

    /// Of painting, which answers `number`.
    pub fn of_painting(sheet: Sheet, number: u32) -> Self {
        let [_, links, table, outputs, _] = fronts(sheet);
        Self::of_sheet([0, links, table, outputs, 0], UNPAINTED, number)
    }

    /// Of storing, which answers `number`.
    pub fn of_storing(sheet: Sheet, number: u32) -> Self {
        Self::of_sheet(fronts(sheet), UNSTORED, number)
    }

    fn of_sheet(reads: Fronts, unread: &'static [Range<usize>], number: u32) -> Self {
        if BEFORE_READING.contains(&number) {
            return Self::default();
        }
        Self {
            reads,
            unread,
            writes_bytes: number == 0,
            ..Self::default()
        }
    }

    /// Before the call: all is undefined but what the call may read.
    pub fn before(&self, buffers: &Buffers, bytes: &[u8]) {
        for ((_, buffer), front) in buffers.named().into_iter().zip(self.reads) {
            memcheck::undefined(&buffer[front.min(buffer.len())..]);
        }
        let table = &buffers.table[..self.reads[2].min(buffers.table.len())];
        for slot in table.chunks_exact(SLOT) {
            for part in self.unread {
                memcheck::undefined(&slot[part.clone()]);
            }
        }
        memcheck::undefined(bytes);
    }

    /// After the call: what it must write is defined, and all is then compared.
    pub fn after(&self, buffers: &Buffers, bytes: &[u8]) {
        for ((_, buffer), front) in buffers.named().into_iter().zip(self.writes) {
            memcheck::check_defined(&buffer[..front.min(buffer.len())]);
            memcheck::defined(buffer);
        }
        if self.writes_bytes {
            memcheck::check_defined(bytes);
        }
        memcheck::defined(bytes);
    }
}

/// What a sheet of an accepted size has of each buffer; it has no work buffer.
fn fronts(sheet: Sheet) -> Fronts {
    let pixels = sheet.pixels();
    let slots = SLOT * sheet.n as usize;
    [pixels, pixels, slots, sheet.m as usize, 0]
}
