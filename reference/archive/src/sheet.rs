//! A sheet in buffers: what painting and storing make of it, by rules 9.1 to 9.3, 11.1 and 11.2.

use judge::answer::{Answer, SLOT};
use judge::case::{Case, Rgba, CHANNELS};

use crate::buffers::Buffers;

/// Where a slot has its first pixel, its pixel count and its residue (r, g, b, a, count).
pub const FIRST_PIXEL: usize = 0;
pub const PIXEL_COUNT: usize = 1;
pub const RESIDUE: usize = 11;

/// The numbers of a sheet besides those in its buffers; nothing here needs to be what the rules
/// accept.
#[derive(Clone, Copy, Debug, PartialEq, Eq)]
pub struct Sheet {
    pub width: u32,
    pub height: u32,
    pub n: u32,
    pub m: u32,
}

impl Sheet {
    /// The sheet that a case leaves when `answer` is right.
    pub fn of(case: &Case, answer: &Answer) -> Self {
        Self {
            width: case.width,
            height: case.height,
            n: answer.n(),
            m: answer.m(),
        }
    }

    /// The number of pixels, of an accepted size.
    pub fn pixels(&self) -> usize {
        self.width as usize * self.height as usize
    }

    /// The picture: over zeros the outputs from last to first, each along its list with its residue
    /// average. No check of painting may fail.
    pub fn picture(&self, buffers: &Buffers) -> Vec<u8> {
        let mut picture = vec![0; CHANNELS * self.pixels()];
        for &k in buffers.outputs[..self.m as usize].iter().rev() {
            let slot = slot(buffers, k);
            let color = average(slot).expect("check 9 passes");
            for pixel in self.list(buffers, slot).expect("check 10 passes") {
                picture[CHANNELS * pixel..][..CHANNELS].copy_from_slice(&color);
            }
        }
        picture
    }

    /// The pixels of a slot, along the links; none where its count is above the number of pixels,
    /// or where a link is 0 or above it with pixels still to list.
    pub fn list(&self, buffers: &Buffers, slot: &[u32]) -> Option<Vec<usize>> {
        let count = slot[PIXEL_COUNT] as usize;
        if count > self.pixels() {
            return None;
        }
        let mut link = slot[FIRST_PIXEL] as usize;
        let mut list = Vec::with_capacity(count);
        while list.len() < count {
            if !(1..=self.pixels()).contains(&link) {
                return None;
            }
            list.push(link - 1);
            link = buffers.links[link - 1] as usize;
        }
        Some(list)
    }

    /// The numbers that are stored, in order. The buffers are long enough.
    pub fn stored_numbers(&self, buffers: &Buffers) -> Vec<u32> {
        let mut numbers = vec![self.width, self.height, self.n, self.m];
        for pixel in 0..self.pixels() {
            numbers.extend([buffers.labels[pixel], buffers.links[pixel]]);
        }
        for k in 0..self.n {
            let slot = slot(buffers, k);
            numbers.extend([slot[FIRST_PIXEL], slot[PIXEL_COUNT]]);
        }
        numbers.extend(&buffers.outputs[..self.m as usize]);
        numbers
    }

    /// The length of the stored sheet, of an accepted size and accepted counts.
    pub fn stored_length(&self) -> usize {
        2 * (4 + 2 * self.pixels() + 2 * self.n as usize + self.m as usize)
    }

    /// The stored sheet. No check of storing may fail.
    pub fn stored(&self, buffers: &Buffers) -> Vec<u8> {
        let two_bytes = |number| u16::try_from(number).expect("check 12 passes");
        self.stored_numbers(buffers)
            .into_iter()
            .flat_map(|number| two_bytes(number).to_le_bytes())
            .collect()
    }
}

/// Slot k of the table.
pub fn slot(buffers: &Buffers, k: u32) -> &[u32] {
    &buffers.table[SLOT * k as usize..][..SLOT]
}

/// The average of a slot's residue, in whole numbers; none where the residue counts nothing, or
/// where a channel exceeds 255 × count.
pub fn average(slot: &[u32]) -> Option<Rgba> {
    let count = slot[RESIDUE + CHANNELS];
    let mut color = [0; CHANNELS];
    for (average, total) in color.iter_mut().zip(&slot[RESIDUE..]) {
        if u64::from(*total) > 255 * u64::from(count) {
            return None;
        }
        *average = total.checked_div(count)? as u8;
    }
    Some(color)
}

#[cfg(test)]
mod tests {
    use super::*;
    use judge::{cases, original};

    /// What a case leaves in buffers of zeros.
    fn left_by(case: &Case, answer: &Answer) -> (Sheet, Buffers) {
        let buffers = Buffers::exact(case.area() as usize).after(answer);
        (Sheet::of(case, answer), buffers)
    }

    #[test]
    fn pictures_are_the_original_s() {
        for index in 0..2_000 {
            let case = cases::mixed(5, index);
            let answer = original::answer(&case);
            let (sheet, buffers) = left_by(&case, &answer);
            assert_eq!(sheet.picture(&buffers), answer.picture);
        }
    }

    /// H3 (rules, section 13), black and white: cluster 1 lies inside cluster 2.
    #[test]
    fn a_worked_image_is_stored_by_hand() {
        let case = cases::worked::case(2);
        let (sheet, buffers) = left_by(&case, &original::answer(&case));
        let numbers = [
            [2, 1, 3, 2], // w, h, n, m
            [2, 0, 2, 1], // label and link of each pixel
            [0, 0, 1, 1], // first pixel and count of each slot
            [2, 2, 1, 2], // of the last slot, and the outputs
        ];
        assert_eq!(sheet.stored_numbers(&buffers), numbers.concat());
        assert_eq!(sheet.stored(&buffers)[..4], [2, 0, 1, 0]);
        assert_eq!(sheet.stored(&buffers).len(), sheet.stored_length());
    }

    #[test]
    fn the_low_byte_comes_first() {
        let sheet = Sheet {
            width: 1,
            height: 258,
            n: 0,
            m: 0,
        };
        let stored = sheet.stored(&Buffers::exact(258).filled(65_535));
        assert_eq!(stored[..8], [1, 0, 2, 1, 0, 0, 0, 0]);
        assert_eq!(stored[8..], [255; 4 * 258]);
    }

    #[test]
    fn averages_are_floors() {
        let of = |residue: [u32; 5]| average(&[[0; RESIDUE].as_slice(), &residue].concat());
        assert_eq!(of([5, 6, 7, 510, 2]), Some([2, 3, 3, 255]));
        assert_eq!(of([0, 0, 0, 0, 0]), None);
        assert_eq!(of([0, 0, 0, 511, 2]), None);
        // 255 × count is above 32 bits.
        assert_eq!(of([u32::MAX, 0, 0, 0, 16_843_010]), Some([254, 0, 0, 0]));
    }
}
