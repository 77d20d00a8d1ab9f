//! All tiny images over small alphabets, under a grid of settings, each with a number.

use super::worked::{B, K, N, T, W};
use crate::case::{Case, KeyingAction, Rgba, Settings, HIERARCHICAL_MAX, NO_KEY};

/// Three colours and the key that goes with them.
struct Alphabet {
    colors: [Rgba; 3],
    key: Rgba,
}

/// Black and white with grey; key, near-key and others; the key but for its alpha; two chains in
/// which neighbours are like and ends are not; clear pixels with a clear key.
const ALPHABETS: [Alphabet; 6] = [
    Alphabet {
        colors: [B, W, [127, 127, 127, 255]],
        key: W,
    },
    Alphabet {
        colors: [K, N, B],
        key: K,
    },
    Alphabet {
        colors: [K, [255, 0, 255, 254], N],
        key: K,
    },
    Alphabet {
        colors: [B, [16, 16, 16, 255], [32, 32, 32, 255]],
        key: B,
    },
    Alphabet {
        colors: [K, [224, 16, 240, 255], [208, 32, 224, 255]],
        key: K,
    },
    Alphabet {
        colors: [T, B, [0, 0, 1, 0]],
        key: [0, 0, 1, 0],
    },
];

const SIZES: [(u32, u32); 13] = [
    (1, 1),
    (2, 1),
    (1, 2),
    (3, 1),
    (1, 3),
    (4, 1),
    (1, 4),
    (5, 1),
    (1, 5),
    (2, 2),
    (3, 2),
    (2, 3),
    (3, 3),
];

/// `is_same_color_a` and `is_same_color_b`.
const LIKENESS: [(i32, i32); 3] = [(4, 1), (0, 0), (3, -1)];

/// The key used or not, and what becomes of its pixels.
const KEYING: [(bool, KeyingAction); 3] = [
    (false, KeyingAction::Keep),
    (true, KeyingAction::Keep),
    (true, KeyingAction::Discard),
];

/// `hierarchical`, `good_min_area`, `good_max_area`, `hollow_neighbours`, `deepen_diff`.
const ORDERS: [(u32, u32, u32, u32, i32); 7] = [
    (HIERARCHICAL_MAX, 0, 65_536, 1, 64),
    (HIERARCHICAL_MAX, 0, 65_536, 0, -1),
    (HIERARCHICAL_MAX, 0, 3, 2, 16),
    (HIERARCHICAL_MAX, 4, 65_536, 1, 0),
    (0, 0, 65_536, 1, 64),
    (1, 0, 65_536, 1, 64),
    (3, 0, 65_536, 1, 64),
];

const fn images_of(size: (u32, u32)) -> u64 {
    3u64.pow(size.0 * size.1)
}

const fn all_images() -> u64 {
    let mut total = 0;
    let mut i = 0;
    while i < SIZES.len() {
        total += images_of(SIZES[i]);
        i += 1;
    }
    total
}

const GRID: u64 = (ALPHABETS.len() * LIKENESS.len() * KEYING.len() * ORDERS.len()) as u64;

/// How many cases the enumeration has.
pub const TINY_CASES: u64 = GRID * all_images();

/// The `index`-th case, round and round; the grid of settings turns fastest.
pub fn case(index: u64) -> Case {
    let mut digits = Digits(index % TINY_CASES);
    let alphabet = digits.pick(&ALPHABETS);
    let &(is_same_color_a, is_same_color_b) = digits.pick(&LIKENESS);
    let &(keyed, keying_action) = digits.pick(&KEYING);
    let &(hierarchical, good_min_area, good_max_area, hollow_neighbours, deepen_diff) =
        digits.pick(&ORDERS);
    let settings = Settings {
        is_same_color_a,
        is_same_color_b,
        hierarchical,
        good_min_area,
        good_max_area,
        hollow_neighbours,
        deepen_diff,
        key: if keyed { alphabet.key } else { NO_KEY },
        keying_action,
    };
    let (width, height) = digits.pick_size();
    let pixels: Vec<Rgba> = (0..width * height)
        .map(|_| *digits.pick(&alphabet.colors))
        .collect();
    Case::of_pixels(settings, width, height, &pixels)
}

/// A number that is taken apart from its lowest digit, each digit with a base of its own.
struct Digits(u64);

impl Digits {
    fn pick<'a, T>(&mut self, choices: &'a [T]) -> &'a T {
        let base = choices.len() as u64;
        let digit = self.0 % base;
        self.0 /= base;
        &choices[digit as usize]
    }

    fn pick_size(&mut self) -> (u32, u32) {
        for size in SIZES {
            if self.0 < images_of(size) {
                return size;
            }
            self.0 -= images_of(size);
        }
        unreachable!("the index is below the number of cases")
    }
}
