//! The facts of the images worked by hand (rules, section 13), asked of both the original and the
//! model.

use judge::answer::Answer;
use judge::case::{Case, Rgba};
use judge::cases::worked::{self, B, K, P, T, W};
use judge::model::{self, Reading};
use judge::original;

/// The answer of the original, which the model must give too.
fn answer(name: &str) -> Answer {
    let case = case(name);
    let answer = original::answer(&case);
    assert_eq!(answer, model::answer(&case, Reading::Right), "{name}");
    answer
}

fn stage_1_labels(name: &str) -> Vec<u32> {
    let case = case(name);
    let labels = original::stage_1_labels(&case);
    assert_eq!(labels, model::stage_1_labels(&case), "{name}");
    labels
}

fn case(name: &str) -> Case {
    let found = worked::all().into_iter().find(|(given, _)| *given == name);
    found.expect("a worked image").1
}

/// The pixels of a cluster, walked from its first pixel over as many links as it counts.
fn list(answer: &Answer, k: usize) -> Vec<u32> {
    let [first, count, ..] = answer.table[k];
    let walk = std::iter::successors(Some(first), |&p| Some(answer.links[p as usize - 1]));
    walk.take(count as usize).map(|p| p - 1).collect()
}

fn picture(pixels: &[Rgba]) -> Vec<u8> {
    pixels.concat()
}

#[test]
fn h1_is_one_cluster() {
    let answer = answer("H1");
    assert_eq!(answer.n(), 2);
    assert_eq!(answer.outputs, [1]);
    assert_eq!(answer.picture, picture(&[P]));
}

#[test]
fn h2_is_no_plain_component() {
    assert_eq!(stage_1_labels("H2"), [1, 2, 2, 2]);
    let answer = answer("H2");
    assert_eq!(answer.n(), 4);
    assert_eq!(answer.outputs, [2]);
    assert_eq!(list(&answer, 2), [1, 2, 3, 0]);
}

#[test]
fn h3_deepens_with_a_hole() {
    for name in ["H3", "H3, deepen_diff 764"] {
        let answer = answer(name);
        assert_eq!(answer.outputs, [1, 2]);
        assert_eq!(list(&answer, 2), [1, 0]);
        assert_eq!(answer.table[2][6..11], [255, 255, 255, 510, 2]);
        assert_eq!(answer.table[2][11..16], [255, 255, 255, 255, 1]);
        assert_eq!(answer.table[1][16], 2, "merged_into");
        assert_eq!(answer.table[2][17..], [1, 1, 2, 0], "depth and hole child");
        assert_eq!(answer.picture, picture(&[B, W]));
    }
}

#[test]
fn h4_and_h6_merge_plainly() {
    for name in ["H4", "H6"] {
        let answer = answer(name);
        assert_eq!(answer.outputs, [2]);
        assert_eq!(answer.picture, picture(&[[127, 127, 127, 255]; 2]));
    }
}

#[test]
fn h5_puts_out_all() {
    assert_eq!(answer("H5").outputs, [1, 2]);
}

#[test]
fn h7_keeps_the_key_pixel() {
    let answer = answer("H7");
    assert_eq!(answer.n(), 1);
    assert_eq!(answer.outputs, [0]);
    assert_eq!(answer.picture, picture(&[K]));
}

#[test]
fn h8_discards_the_key_pixel() {
    let answer = answer("H8");
    assert_eq!(answer.m(), 0);
    assert_eq!(answer.picture, picture(&[T]));
}

#[test]
fn h9_sends_a_near_key_pixel_to_cluster_0() {
    assert_eq!(stage_1_labels("H9"), [0, 0, 1, 0]);
    let answer = answer("H9");
    assert_eq!(answer.labels, [0, 0, 1, 1]);
    assert_eq!(answer.outputs, [1]);
    let mixed = [127, 0, 127, 255];
    assert_eq!(answer.picture, picture(&[T, T, mixed, mixed]));
}

#[test]
fn h10_keeps_the_key_pixels_in_cluster_0() {
    let answer = answer("H10");
    assert_eq!(list(&answer, 1), [2, 0, 1, 3]);
    assert_eq!(answer.outputs, [1]);
    assert_eq!(answer.picture, picture(&[[191, 0, 191, 255]; 4]));
}
