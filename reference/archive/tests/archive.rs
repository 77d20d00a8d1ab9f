//! The linked library on what the rules name.

use archive::buffers::Buffers;
use archive::call::{self, Call};
use archive::differ::{accepted, damaged, refused, Room};
use archive::sheet::Sheet;
use judge::case::{Case, Settings};
use judge::cases::worked;
use judge::original;

#[test]
fn the_worked_images_are_the_original_s() {
    for (name, case) in worked::all() {
        let lent = Buffers::exact(case.area() as usize).filled(7);
        if let Err(difference) = accepted(&case, &Call::of(&case), &lent) {
            panic!("{name}: {difference}");
        }
    }
}

#[test]
fn the_edges_are_accepted() {
    for (shift, width, height) in [(0, 2, 3), (7, 2, 3), (4, 65_000, 1), (4, 1, 65_000)] {
        let settings = Settings {
            is_same_color_a: shift,
            ..Settings::default()
        };
        let pixels = vec![worked::P; (width * height) as usize];
        let case = Case::of_pixels(settings, width, height, &pixels);
        let lent = Buffers::exact(pixels.len()).filled(7);
        accepted(&case, &Call::of(&case), &lent).expect("no difference");
    }
}

/// A length of more than 32 bits is not cut. The bytes are zeros that nobody touches, so they take
/// no memory to speak of.
#[test]
fn lengths_that_are_2_to_the_32_above_the_right_ones_are_refused() {
    let case = worked::case(0);
    let right = original::answer(&case);
    let sheet = Sheet::of(&case, &right);
    let mut lent = Buffers::exact(1).filled(7).after(&right);
    let before = lent.clone();
    let mut bytes = vec![0; (1 << 32) + sheet.stored_length()];
    bytes[0] = 7;
    let picture = &mut bytes[..(1 << 32) + 4];

    let call = Call {
        image: picture,
        ..Call::of(&case)
    };
    assert_eq!(call::run(&call, &mut lent).number, 4);
    assert_eq!(call::run_and_paint(&call, &mut lent, &mut [7; 4]).number, 4);
    let call = Call::of(&case);
    let answer = call::run_and_paint(&call, &mut lent, picture);
    assert_eq!((answer.number, answer.n, answer.m), (6, 0, 0));
    assert_eq!(call::paint(sheet, &mut lent, picture), 6);
    assert_eq!(call::row_check((1, 1), picture, 0), 6);
    assert_eq!(call::store(sheet, &mut lent, &mut bytes), 13);
    assert_eq!((lent, &bytes[..4]), (before, &[7, 0, 0, 0][..]));
}

/// What the comparison says of a wrong expectation: it is not blind.
#[test]
fn a_wrong_number_is_a_difference() {
    let case = worked::case(0);
    let call = Call {
        width: 0,
        ..Call::of(&case)
    };
    let lent = Buffers::exact(1).filled(7);
    let picture = [7; 4];
    assert!(refused(&call, &lent, &picture, [2, 2]).is_ok());
    for (numbers, function) in [([3, 2], "run"), ([2, 3], "run_and_paint")] {
        let difference = refused(&call, &lent, &picture, numbers).expect_err("check 2 fails first");
        let text = difference.to_string();
        assert!(text.contains(&format!("color_clusters_{function}:")));
        assert!(text.contains("number: 2"));
    }
}

#[test]
fn rows_and_sizes_are_checked() {
    let mut picture = vec![7; 24];
    let mut row = |y| call::row_check((2, 3), &mut picture, y);
    assert_eq!([0, 2, 3, u32::MAX].map(&mut row), [0, 0, 11, 11]);
    let sheet = Sheet {
        width: 65_001,
        height: 1,
        n: 0,
        m: 0,
    };
    let mut none = Buffers::default();
    assert_eq!(call::paint(sheet, &mut none, &mut []), 3);
    assert_eq!(call::store(sheet, &mut none, &mut []), 3);
}

#[test]
fn damaged_sheets_are_refused_or_painted_by_the_rules() {
    for index in 0..500 {
        if let Err(difference) = damaged::compare(1, index, Room::Ample) {
            panic!("{index}: {difference}");
        }
    }
}
