//! The numbers that a caller lends.

use std::fmt;

use judge::answer::{self, SLOT};

/// The five buffers of one call.
#[derive(Clone, Debug, Default, PartialEq, Eq)]
pub struct Buffers {
    pub labels: Vec<u32>,
    pub links: Vec<u32>,
    pub table: Vec<u32>,
    pub outputs: Vec<u32>,
    pub work: Vec<u32>,
}

/// How long each of the five buffers is.
#[derive(Clone, Copy, Debug, PartialEq, Eq)]
pub struct Lengths {
    pub labels: usize,
    pub links: usize,
    pub table: usize,
    pub outputs: usize,
    pub work: usize,
}

impl Lengths {
    /// What the rules ask for at least, for an image of `pixels`.
    pub fn exact(pixels: usize) -> Self {
        Self {
            labels: pixels,
            links: pixels,
            table: SLOT * (pixels + 1),
            outputs: 2 * pixels,
            work: 8 * pixels + 8,
        }
    }

    /// The five lengths, in the order of the call.
    pub fn each(mut self) -> [usize; 5] {
        self.each_mut().map(|length| *length)
    }

    /// The same, to be changed.
    pub fn each_mut(&mut self) -> [&mut usize; 5] {
        [
            &mut self.labels,
            &mut self.links,
            &mut self.table,
            &mut self.outputs,
            &mut self.work,
        ]
    }
}

impl fmt::Display for Lengths {
    fn fmt(&self, out: &mut fmt::Formatter) -> fmt::Result {
        let [labels, links, table, outputs, work] = self.each();
        write!(
            out,
            "labels {labels}, links {links}, table {table}, outputs {outputs}, work {work}"
        )
    }
}

impl Buffers {
    /// Zeros of the given lengths.
    pub fn of(lengths: Lengths) -> Self {
        Self {
            labels: vec![0; lengths.labels],
            links: vec![0; lengths.links],
            table: vec![0; lengths.table],
            outputs: vec![0; lengths.outputs],
            work: vec![0; lengths.work],
        }
    }

    /// Zeros, exactly as long as an image of `pixels` needs.
    pub fn exact(pixels: usize) -> Self {
        Self::of(Lengths::exact(pixels))
    }

    /// The same lengths with `value` everywhere.
    pub fn filled(self, value: u32) -> Self {
        self.filled_by(|| value)
    }

    /// The same lengths with numbers from `next`, one after another.
    pub fn filled_by(mut self, mut next: impl FnMut() -> u32) -> Self {
        for buffer in self.each_mut() {
            buffer.fill_with(&mut next);
        }
        self
    }

    /// What an accepted run leaves here when `answer` is right: what lies beyond the answer stays,
    /// and the work buffer is zero in its whole length.
    pub fn after(&self, answer: &answer::Answer) -> Self {
        let mut after = self.clone();
        overwrite(&mut after.labels, &answer.labels);
        overwrite(&mut after.links, &answer.links);
        overwrite(&mut after.table, answer.table.as_flattened());
        overwrite(&mut after.outputs, &answer.outputs);
        after.work.fill(0);
        after
    }

    /// The lengths.
    pub fn lengths(&self) -> Lengths {
        Lengths {
            labels: self.labels.len(),
            links: self.links.len(),
            table: self.table.len(),
            outputs: self.outputs.len(),
            work: self.work.len(),
        }
    }

    /// The buffers with their names, in the order of the call.
    pub fn named(&self) -> [(&'static str, &[u32]); 5] {
        [
            ("labels", &self.labels),
            ("links", &self.links),
            ("table", &self.table),
            ("outputs", &self.outputs),
            ("work", &self.work),
        ]
    }

    /// The buffers in the order of the call, to be changed.
    pub fn each_mut(&mut self) -> [&mut Vec<u32>; 5] {
        [
            &mut self.labels,
            &mut self.links,
            &mut self.table,
            &mut self.outputs,
            &mut self.work,
        ]
    }
}

/// Puts `numbers` at the front of `buffer`.
fn overwrite(buffer: &mut [u32], numbers: &[u32]) {
    buffer[..numbers.len()].copy_from_slice(numbers);
}

#[cfg(test)]
mod tests {
    use super::*;

    #[test]
    fn buffers_have_the_lengths_of_the_rules() {
        let lengths = Buffers::exact(6).lengths();
        assert_eq!(lengths, Lengths::exact(6));
        assert_eq!(lengths.each(), [6, 6, 147, 12, 56]);
    }

    #[test]
    fn what_lies_beyond_an_answer_stays() {
        let answer = answer::Answer {
            labels: vec![1],
            links: vec![0],
            table: vec![[3; SLOT]],
            outputs: vec![1],
            picture: vec![],
        };
        let after = Buffers::exact(1).filled(7).after(&answer);
        assert_eq!((after.labels, after.links), (vec![1], vec![0]));
        assert_eq!(after.table, [[3; SLOT], [7; SLOT]].concat());
        assert_eq!(after.outputs, [1, 7]);
        assert_eq!(after.work, [0; 16]);
    }
}
