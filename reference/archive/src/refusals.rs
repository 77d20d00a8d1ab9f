//! Which number each call must answer, by rules 3.2 to 3.4.

use std::ops::Range;

use crate::buffers::{Buffers, Lengths};
use crate::sheet::{average, slot, Sheet};

/// The largest image, in pixels, that check 3 lets pass.
const MOST_PIXELS: u128 = 65_000;

/// The largest number that check 12 lets pass.
const MOST_STORED: u32 = 65_535;

/// Which of the five buffers a call takes, in their order.
const BY_RUN: Range<usize> = 0..5;
const BY_PAINT: Range<usize> = 1..4;
const BY_STORE: Range<usize> = 0..4;

/// A line of the table: its number, and whether the call fails it.
type Check = (u32, bool);

/// The number for `color_clusters_run`. `image` is a length.
pub fn run(shift: i32, size: (u32, u32), image: usize, lent: Lengths) -> u32 {
    first_failed(&run_checks(shift, size, image, lent))
}

/// The number for `color_clusters_run_and_paint`. `image` and `picture` are lengths.
pub fn run_and_paint(
    shift: i32,
    size: (u32, u32),
    image: usize,
    lent: Lengths,
    picture: usize,
) -> u32 {
    let mut checks = run_checks(shift, size, image, lent);
    checks.push((6, !is_four_each(picture, size)));
    first_failed(&checks)
}

/// The number for `color_clusters_paint`. `picture` is a length.
pub fn paint(sheet: Sheet, buffers: &Buffers, picture: usize) -> u32 {
    let mut checks = sheet_checks(sheet, buffers, BY_PAINT);
    checks.push((6, !is_four_each(picture, (sheet.width, sheet.height))));
    match first_failed(&checks) {
        0 => entries(sheet, buffers),
        number => number,
    }
}

/// The number for `color_clusters_row_check`. `picture` is a length.
pub fn row_check(size: (u32, u32), picture: usize, y: u32) -> u32 {
    let mut checks = size_checks(size);
    checks.extend([(6, !is_four_each(picture, size)), (11, y >= size.1)]);
    first_failed(&checks)
}

/// The number for `color_clusters_store`. `destination` is a length.
pub fn store(sheet: Sheet, buffers: &Buffers, destination: usize) -> u32 {
    let number = first_failed(&sheet_checks(sheet, buffers, BY_STORE));
    if number != 0 {
        return number;
    }
    let numbers = sheet.stored_numbers(buffers);
    first_failed(&[
        (12, numbers.iter().any(|&number| number > MOST_STORED)),
        (13, destination != 2 * numbers.len()),
    ])
}

/// The number of the first check that fails; 0 where none does.
fn first_failed(checks: &[Check]) -> u32 {
    let failed = checks.iter().find(|(_, fails)| *fails);
    failed.map_or(0, |(number, _)| *number)
}

/// Checks 1 to 5, as a run makes them.
fn run_checks(shift: i32, size: (u32, u32), image: usize, lent: Lengths) -> Vec<Check> {
    let mut checks = vec![(1, !(0..=7).contains(&shift))];
    checks.extend(size_checks(size));
    checks.push((4, !is_four_each(image, size)));
    checks.push((5, is_short(lent, BY_RUN, size)));
    checks
}

/// Checks 2, 3 and 5, as a call makes them that takes some of the buffers with n and m.
fn sheet_checks(sheet: Sheet, buffers: &Buffers, taken: Range<usize>) -> Vec<Check> {
    let size = (sheet.width, sheet.height);
    let fails_5 = is_short(buffers.lengths(), taken, size)
        || u128::from(sheet.n) > pixels(size) + 1
        || u128::from(sheet.m) > 2 * pixels(size);
    let mut checks = size_checks(size);
    checks.push((5, fails_5));
    checks
}

/// Checks 2 and 3.
fn size_checks((width, height): (u32, u32)) -> Vec<Check> {
    vec![
        (2, width == 0 || height == 0),
        (3, pixels((width, height)) > MOST_PIXELS),
    ]
}

/// The true product of the sides.
fn pixels((width, height): (u32, u32)) -> u128 {
    u128::from(width) * u128::from(height)
}

/// Whether there are exactly four bytes for each pixel.
fn is_four_each(bytes: usize, size: (u32, u32)) -> bool {
    bytes as u128 == 4 * pixels(size)
}

/// Whether one of the buffers that a call takes is shorter than the size asks.
fn is_short(lent: Lengths, taken: Range<usize>, size: (u32, u32)) -> bool {
    let pixels = pixels(size);
    let asked = [
        pixels,
        pixels,
        21 * (pixels + 1),
        2 * pixels,
        8 * pixels + 8,
    ];
    let lent = lent.each();
    taken
        .into_iter()
        .any(|buffer| (lent[buffer] as u128) < asked[buffer])
}

/// Checks 8, 9 and 10 of each entry, from last to first.
fn entries(sheet: Sheet, buffers: &Buffers) -> u32 {
    let entries = buffers.outputs[..sheet.m as usize].iter().rev();
    entries
        .map(|&k| entry(sheet, buffers, k))
        .find(|&number| number != 0)
        .unwrap_or(0)
}

fn entry(sheet: Sheet, buffers: &Buffers, k: u32) -> u32 {
    if k >= sheet.n {
        return 8;
    }
    let slot = slot(buffers, k);
    first_failed(&[
        (9, average(slot).is_none()),
        (10, sheet.list(buffers, slot).is_none()),
    ])
}

#[cfg(test)]
mod tests {
    use super::*;
    use crate::sheet::{FIRST_PIXEL, PIXEL_COUNT, RESIDUE};
    use judge::answer::SLOT;
    use judge::cases::worked;
    use judge::original;

    /// The number of a run on an image that has as many bytes and numbers as it needs.
    fn fitting(shift: i32, width: u32, height: u32) -> u32 {
        let pixels = width as usize * height as usize;
        run(shift, (width, height), 4 * pixels, Lengths::exact(pixels))
    }

    #[test]
    fn the_shift_is_0_to_7() {
        assert_eq!((0..8).map(|shift| fitting(shift, 2, 3)).max(), Some(0));
        for shift in [-1, 8, i32::MIN, i32::MAX, 256] {
            assert_eq!(fitting(shift, 2, 3), 1);
        }
    }

    #[test]
    fn no_side_is_0() {
        assert_eq!(fitting(4, 0, 3), 2);
        assert_eq!(fitting(4, 3, 0), 2);
        assert_eq!(fitting(4, 0, u32::MAX), 2);
    }

    #[test]
    fn there_are_at_most_65_000_pixels() {
        assert_eq!(fitting(7, 65_000, 1), 0);
        assert_eq!(fitting(7, 250, 260), 0);
        assert_eq!(fitting(7, 65_001, 1), 3);
        assert_eq!(fitting(7, 1, 65_001), 3);
        assert_eq!(fitting(7, 251, 259), 3);
    }

    #[test]
    fn the_product_of_the_sides_is_the_true_one() {
        let of_one = |width, height| run(4, (width, height), 4, Lengths::exact(1));
        assert_eq!(of_one(1, 1), 0);
        assert_eq!(of_one(641, 6_700_417), 3);
        assert_eq!(of_one(u32::MAX, u32::MAX), 3);
        assert_eq!(run(4, (1 << 16, 1 << 16), 0, Lengths::exact(0)), 3);
        assert_eq!(row_check((641, 6_700_417), 4, 0), 3);
    }

    #[test]
    fn the_image_has_four_bytes_for_each_pixel() {
        let of_six = |bytes| run(4, (2, 3), bytes, Lengths::exact(6));
        assert_eq!(of_six(24), 0);
        for bytes in [0, 6, 18, 23, 25, 28] {
            assert_eq!(of_six(bytes), 4);
        }
    }

    #[test]
    fn no_buffer_of_a_run_is_short() {
        let of_six = |lent| run(4, (2, 3), 24, lent);
        for buffer in 0..5 {
            let mut lent = Lengths::exact(6);
            *lent.each_mut()[buffer] += 1;
            assert_eq!(of_six(lent), 0);
            *lent.each_mut()[buffer] -= 2;
            assert_eq!(of_six(lent), 5);
            *lent.each_mut()[buffer] = 0;
            assert_eq!(of_six(lent), 5);
        }
    }

    #[test]
    fn the_first_failed_check_counts() {
        let none = Lengths::exact(0);
        let both = |shift, size, bytes, lent| {
            let number = run(shift, size, bytes, lent);
            assert_eq!(run_and_paint(shift, size, bytes, lent, 7), number);
            number
        };
        assert_eq!(both(8, (0, 9), 5, none), 1);
        assert_eq!(both(8, (65_001, 1), 5, none), 1);
        assert_eq!(both(4, (0, 9), 5, none), 2);
        assert_eq!(both(4, (65_001, 1), 5, none), 3);
        assert_eq!(both(4, (9, 1), 5, none), 4);
        assert_eq!(both(4, (9, 1), 36, none), 5);
        let enough = Lengths::exact(9);
        assert_eq!(run_and_paint(4, (9, 1), 36, enough, 7), 6);
        assert_eq!(run_and_paint(4, (9, 1), 36, enough, 36), 0);
    }

    /// What the calls over a sheet are given.
    #[derive(Clone)]
    struct Given {
        sheet: Sheet,
        buffers: Buffers,
        picture: usize,
        destination: usize,
    }

    impl Given {
        /// H3 (rules, section 13) in buffers with two numbers more than asked: 2×1 pixels, n 3, and the
        /// outputs 1, 2. Slot 1 lists pixel 0; slot 2 lists pixel 1, then 0.
        fn h3() -> Self {
            let case = worked::case(2);
            let answer = original::answer(&case);
            let mut lengths = Lengths::exact(2);
            for length in lengths.each_mut() {
                *length += 2;
            }
            Self {
                sheet: Sheet::of(&case, &answer),
                buffers: Buffers::of(lengths).after(&answer),
                picture: 8,
                destination: 2 * (4 + 4 + 6 + 2),
            }
        }

        /// The same with one thing changed.
        fn with(&self, change: impl FnOnce(&mut Self)) -> Self {
            let mut changed = self.clone();
            change(&mut changed);
            changed
        }

        /// The same with another number f of slot k.
        fn slot(&self, k: usize, f: usize, number: u32) -> Self {
            self.with(|given| given.buffers.table[SLOT * k + f] = number)
        }

        fn paint(&self) -> u32 {
            paint(self.sheet, &self.buffers, self.picture)
        }

        fn store(&self) -> u32 {
            store(self.sheet, &self.buffers, self.destination)
        }

        fn row_check(&self, y: u32) -> u32 {
            row_check((self.sheet.width, self.sheet.height), self.picture, y)
        }

        /// The numbers of painting, storing and the last row.
        fn all(&self) -> [u32; 3] {
            let last = self.sheet.height.saturating_sub(1);
            [self.paint(), self.store(), self.row_check(last)]
        }
    }

    #[test]
    fn what_a_run_left_is_accepted() {
        assert_eq!(Given::h3().all(), [0; 3]);
    }

    #[test]
    fn every_call_checks_the_size_first() {
        let bad = Given::h3().with(|given| {
            given.sheet.m = 9;
            given.buffers.outputs[0] = 70_000;
            (given.picture, given.destination) = (7, 0);
        });
        let sized = |width, height| {
            let change = |given: &mut Given| {
                (given.sheet.width, given.sheet.height) = (width, height);
            };
            bad.with(change).all()
        };
        assert_eq!(sized(0, 1), [2; 3]);
        assert_eq!(sized(2, 0), [2; 3]);
        assert_eq!(sized(0, 65_001), [2; 3]);
        assert_eq!(sized(65_001, 1), [3; 3]);
        assert_eq!(sized(1 << 31, 2), [3; 3]);
        assert_eq!(sized(65_000, 1), [5, 5, 6]);
    }

    #[test]
    fn a_call_asks_for_the_length_of_the_buffers_that_it_takes() {
        let needs = [(2, [0, 5]), (2, [5; 2]), (63, [5; 2]), (4, [5; 2])];
        for (buffer, (length, short)) in needs.into_iter().enumerate() {
            let cut = |length| {
                Given::h3().with(|given| given.buffers.each_mut()[buffer].truncate(length))
            };
            assert_eq!(cut(length).all(), [0; 3]);
            assert_eq!(cut(length - 1).all()[..2], short);
            assert_eq!(cut(0).all()[..2], short);
        }
        let no_work = Given::h3().with(|given| given.buffers.work.clear());
        assert_eq!(no_work.all(), [0; 3]);
    }

    #[test]
    fn n_and_m_are_at_most_what_the_buffers_hold() {
        let with_n = |n| Given::h3().with(|given| given.sheet.n = n);
        assert_eq!(with_n(3).paint(), 0);
        assert_eq!(with_n(4).all()[..2], [5; 2]);
        assert_eq!(with_n(u32::MAX).all()[..2], [5; 2]);
        let with_m = |m| {
            Given::h3().with(|given| {
                given.sheet.m = m;
                given.buffers.outputs.fill(1);
                given.destination = 2 * (14 + m as usize);
            })
        };
        assert_eq!(with_m(4).all()[..2], [0; 2]);
        assert_eq!(with_m(5).all()[..2], [5; 2]);
        assert_eq!(with_m(u32::MAX).all()[..2], [5; 2]);
    }

    #[test]
    fn check_6_wants_four_bytes_for_each_pixel() {
        for picture in [0, 2, 6, 7, 9, 12] {
            let given = Given::h3().with(|given| given.picture = picture);
            assert_eq!(given.all(), [6, 0, 6]);
        }
    }

    #[test]
    fn check_8_wants_entries_below_n() {
        let entry = |k| Given::h3().with(|given| given.buffers.outputs[0] = k);
        assert_eq!(entry(2).paint(), 0);
        assert_eq!(entry(3).paint(), 8);
        assert_eq!(entry(u32::MAX).paint(), 8);
        let fewer = Given::h3().with(|given| given.sheet.n = 2);
        assert_eq!(fewer.paint(), 8);
        let none = fewer.with(|given| given.sheet.m = 0);
        assert_eq!(none.paint(), 0);
        // Entries beyond m are not asked.
        let beyond = Given::h3().with(|given| given.buffers.outputs[2] = 3);
        assert_eq!(beyond.paint(), 0);
    }

    #[test]
    fn check_9_wants_an_average() {
        let h3 = Given::h3();
        let count = |number| h3.slot(2, RESIDUE + 4, number);
        assert_eq!(count(0).paint(), 9);
        assert_eq!(count(1).paint(), 0);
        for channel in 0..4 {
            let total = |count, number| {
                h3.slot(1, RESIDUE + 4, count)
                    .slot(1, RESIDUE + channel, number)
            };
            assert_eq!(total(1, 255).paint(), 0);
            assert_eq!(total(1, 256).paint(), 9);
            assert_eq!(total(2, 510).paint(), 0);
            assert_eq!(total(2, 511).paint(), 9);
            assert_eq!(total(16_843_008, u32::MAX).paint(), 9);
            assert_eq!(total(16_843_009, u32::MAX).paint(), 0);
            assert_eq!(total(16_843_010, u32::MAX).paint(), 0);
        }
        // Slot 0 counts nothing, but no entry names it.
        assert_eq!(h3.with(|given| given.buffers.outputs[1] = 0).paint(), 9);
    }

    #[test]
    fn check_10_wants_a_list() {
        let h3 = Given::h3();
        let count = |number| h3.slot(2, PIXEL_COUNT, number);
        assert_eq!(count(2).paint(), 0);
        assert_eq!(count(3).paint(), 10);
        assert_eq!(count(u32::MAX).paint(), 10);
        let first = |number| h3.slot(2, FIRST_PIXEL, number).slot(2, PIXEL_COUNT, 1);
        assert_eq!([1, 2].map(|number| first(number).paint()), [0; 2]);
        assert_eq!(first(0).paint(), 10);
        assert_eq!(first(3).paint(), 10);
        // Nothing is read with no pixel to list.
        assert_eq!(first(0).slot(2, PIXEL_COUNT, 0).paint(), 0);
        let link = |pixel, number| h3.with(|given| given.buffers.links[pixel] = number);
        assert_eq!(link(1, 0).paint(), 10);
        assert_eq!(link(1, 3).paint(), 10);
        assert_eq!(link(1, u32::MAX).paint(), 10);
        // A loop that the count ends, and a link behind the last pixel.
        assert_eq!(link(1, 2).paint(), 0);
        assert_eq!(link(0, 3).paint(), 0);
    }

    #[test]
    fn entries_are_checked_from_last_to_first() {
        let fails_10 = Given::h3().slot(1, FIRST_PIXEL, 0);
        assert_eq!(fails_10.paint(), 10);
        let last_fails_9 = fails_10.slot(2, RESIDUE + 4, 0);
        assert_eq!(last_fails_9.paint(), 9);
        let last_fails_8 = fails_10.with(|given| given.buffers.outputs[1] = 3);
        assert_eq!(last_fails_8.paint(), 8);
        let first_fails_8 = fails_10.with(|given| given.buffers.outputs[..2].swap(0, 1));
        let first_fails_8 = first_fails_8.with(|given| given.buffers.outputs[0] = 3);
        assert_eq!(first_fails_8.paint(), 10);
    }

    #[test]
    fn an_entry_is_checked_by_8_then_9_then_10() {
        let all = Given::h3()
            .slot(2, RESIDUE + 4, 0)
            .slot(2, PIXEL_COUNT, 3)
            .with(|given| given.sheet.n = 2);
        assert_eq!(all.paint(), 8);
        let two = all.with(|given| given.sheet.n = 3);
        assert_eq!(two.paint(), 9);
        assert_eq!(two.slot(2, RESIDUE + 4, 1).paint(), 10);
        assert_eq!(all.with(|given| given.picture = 7).paint(), 6);
        assert_eq!(all.with(|given| given.sheet.m = 5).paint(), 5);
    }

    #[test]
    fn check_11_wants_a_row_of_the_picture() {
        let rows = |y| row_check((2, 3), 24, y);
        assert_eq!([0, 2].map(rows), [0; 2]);
        assert_eq!([3, 4, u32::MAX].map(rows), [11; 3]);
        assert_eq!(row_check((2, 3), 23, 3), 6);
        assert_eq!(row_check((2, 0), 0, 0), 2);
    }

    #[test]
    fn check_12_wants_numbers_of_two_bytes() {
        let h3 = Given::h3();
        // In each buffer a place that is stored and one that is not.
        let places = [(0, 1, 2), (1, 0, 2), (2, 2 * SLOT, 2), (3, 1, 2)];
        for (buffer, stored, other) in places {
            let put = |place: usize, number| {
                h3.with(|given| given.buffers.each_mut()[buffer][place] = number)
                    .store()
            };
            assert_eq!(put(stored, 65_535), 0);
            assert_eq!(put(stored, 65_536), 12);
            assert_eq!(put(stored, u32::MAX), 12);
            assert_eq!(put(other, 65_536), 0);
        }
        assert_eq!(h3.slot(0, PIXEL_COUNT, 65_536).store(), 12);
        let fewer = h3.slot(2, FIRST_PIXEL, 65_536).with(|given| {
            given.sheet.n = 2;
            given.destination -= 4;
        });
        assert_eq!(fewer.store(), 0);
    }

    #[test]
    fn check_12_is_about_m_too() {
        let buffers = Buffers::exact(32_768);
        let with_m = |m| {
            let sheet = Sheet {
                width: 256,
                height: 128,
                n: 0,
                m,
            };
            store(sheet, &buffers, 2 * (4 + 2 * 32_768 + m as usize))
        };
        assert_eq!(with_m(65_535), 0);
        assert_eq!(with_m(65_536), 12);
        assert_eq!(with_m(65_537), 5);
    }

    #[test]
    fn check_13_wants_the_exact_length() {
        let h3 = Given::h3();
        for destination in [0, 16, 31, 33, 34] {
            let given = h3.with(|given| given.destination = destination);
            assert_eq!(given.all(), [0, 13, 0]);
            let large = given.with(|given| given.buffers.labels[0] = 65_536);
            assert_eq!(large.store(), 12);
            let counted = large.with(|given| given.sheet.m = 5);
            assert_eq!(counted.store(), 5);
        }
    }
}
