//! The model agrees with the original; each kind of case shows what it is made for.

use judge::case::Case;
use judge::cases::{self, Kind};
use judge::compare::compare;
use judge::original;

#[test]
fn the_model_agrees_with_the_original() {
    let mixed = compare(0..20_000, |i| cases::mixed(11, i));
    assert_eq!(mixed.first, None);
    let tiny = compare(0..20_000, |i| cases::case(Kind::Tiny, 0, i * 397));
    assert_eq!(tiny.first, None);
}

#[test]
fn they_agree_on_images_of_the_largest_size() {
    let largest = compare(0..2, |i| cases::sized(21, i, 250, 260));
    assert_eq!(largest.first, None);
}

#[test]
fn a_case_depends_on_kind_seed_and_index_alone() {
    for kind in Kind::ALL {
        assert_eq!(cases::case(kind, 1, 3), cases::case(kind, 1, 3));
        assert_eq!(Kind::named(kind.name()), Some(kind));
    }
    assert_ne!(cases::mixed(1, 3), cases::mixed(2, 3));
}

fn some(kind: Kind) -> impl Iterator<Item = Case> {
    (0..100).map(move |i| cases::case(kind, 1, i))
}

#[test]
fn crowded_cases_have_more_entries_than_pixels() {
    assert!(some(Kind::Crowded).all(|case| original::answer(&case).m() > case.area()));
}

#[test]
fn nested_cases_have_holes_within_holes() {
    let deep = |case: Case| {
        let table = original::answer(&case).table;
        let inner = |slot: &[u32; 21]| slot[16] != 0 && slot[18] > 0;
        table.iter().any(inner)
    };
    assert!(some(Kind::Nested).any(deep));
}

#[test]
fn isolated_cases_repeat_entries() {
    let repeats = |case: Case| {
        let mut outputs = original::answer(&case).outputs;
        outputs.sort_unstable();
        outputs.windows(2).any(|pair| pair[0] == pair[1])
    };
    assert!(some(Kind::Isolated).any(repeats));
}

#[test]
fn strips_have_one_row_or_one_column() {
    assert!(some(Kind::Strip).all(|case| case.width == 1 || case.height == 1));
}
