//! `fuzz`: calls at the boundary to C, decoded from the bytes that libFuzzer makes up.
//!
//! Everything that a caller can choose comes from those bytes: settings, sizes, lengths, the image
//! and what the buffers hold. Most choices are sound, so that one fault at a time is met, too.

#![no_main]

use std::{env, process, slice, sync::OnceLock};

use archive::buffers::{Buffers, Lengths};
use archive::call::{self, Call};
use archive::differ::{self, Difference};
use archive::refusals;
use archive::sheet::Sheet;
use judge::case::{Case, KeyingAction, Rgba, Settings, CHANNELS, HIERARCHICAL_MAX, NO_KEY};
use judge::original;
use judge::rng::Rng;

/// The longest side of an image that is accepted.
const LONGEST: u32 = 12;

/// The number of different colours of an image.
const COLORS: usize = 8;

/// Below this n and m, a destination of their length is lent.
const LENDABLE: u32 = 1_000;

/// Numbers at the edges of what is accepted.
const EDGES: [u32; 12] = [
    0,
    1,
    7,
    8,
    65_000,
    65_001,
    65_535,
    65_536,
    1 << 31,
    (1 << 31) - 1,
    u32::MAX - 1,
    u32::MAX,
];

/// Makes one trial of the bytes. A difference ends the program, which libFuzzer reports.
#[no_mangle]
extern "C" fn LLVMFuzzerTestOneInput(data: *const u8, size: usize) -> i32 {
    let bytes = if size == 0 {
        &[]
    } else {
        // SAFETY: libFuzzer gives a pointer to so many bytes.
        unsafe { slice::from_raw_parts(data, size) }
    };
    if let Err(difference) = trial(&mut Bytes(bytes)) {
        eprintln!("{difference}");
        process::abort();
    }
    0
}

/// A fault that is wanted, to show that it is found: FUZZ_FAULT is `short` or `expectation`.
fn fault() -> &'static str {
    static FAULT: OnceLock<String> = OnceLock::new();
    FAULT.get_or_init(|| env::var("FUZZ_FAULT").unwrap_or_default())
}

/// The bytes that are not decoded yet; zeros follow the last.
struct Bytes<'a>(&'a [u8]);

impl Bytes<'_> {
    fn byte(&mut self) -> u8 {
        match self.0.split_first() {
            Some((first, rest)) => {
                self.0 = rest;
                *first
            }
            None => 0,
        }
    }

    fn bytes<const N: usize>(&mut self) -> [u8; N] {
        [(); N].map(|()| self.byte())
    }

    /// A small number, one at an edge, or any.
    fn number(&mut self) -> u32 {
        match self.byte() {
            small @ 0..=199 => small.into(),
            edge @ 200..=239 => EDGES[edge as usize % EDGES.len()],
            _ => u32::from_le_bytes(self.bytes()),
        }
    }

    /// The same with a sign.
    fn signed(&mut self) -> i32 {
        match self.byte() {
            0 => self.number() as i32,
            small => i32::from(small as i8),
        }
    }

    /// Mostly `right`, else `wrong`.
    fn mostly<T>(&mut self, right: T, wrong: impl FnOnce(&mut Self) -> T) -> T {
        if self.byte() < 224 {
            right
        } else {
            wrong(self)
        }
    }

    /// Mostly `right`, else a number near it or a small one.
    fn length(&mut self, right: usize) -> usize {
        self.mostly(right, |from| match from.byte() {
            0 => 0,
            1 => right / 2,
            2 => right.saturating_sub(1),
            3 => right + 1,
            more @ 4..=99 => right + more as usize,
            small => small as usize,
        })
    }

    /// Mostly `right`, else a number near it or any.
    fn count(&mut self, right: u32) -> u32 {
        self.mostly(right, |from| match from.byte() {
            0 => right.wrapping_sub(1),
            1 => right.wrapping_add(1),
            _ => from.number(),
        })
    }

    fn settings(&mut self, colors: &[Rgba]) -> Settings {
        let shift = self.byte();
        Settings {
            is_same_color_a: self.mostly((shift % 8).into(), Self::signed),
            is_same_color_b: self.signed(),
            hierarchical: self.mostly(HIERARCHICAL_MAX, Self::number),
            good_min_area: self.number(),
            good_max_area: self.mostly(65_536, Self::number),
            hollow_neighbours: self.number(),
            deepen_diff: self.signed(),
            key: match self.byte() {
                0..=99 => NO_KEY,
                100..=239 => colors[0],
                _ => self.bytes(),
            },
            keying_action: match self.byte() % 2 {
                0 => KeyingAction::Keep,
                _ => KeyingAction::Discard,
            },
        }
    }

    /// Mostly the size, else one that may be refused.
    fn told_size(&mut self, (width, height): (u32, u32)) -> (u32, u32) {
        self.mostly((width, height), |from| match from.byte() % 4 {
            0 => (from.count(width), from.count(height)),
            1 => (height, width),
            2 => (from.number(), height),
            _ => (from.number(), from.number()),
        })
    }

    fn lengths(&mut self, pixels: usize) -> Lengths {
        let mut lengths = Lengths::exact(pixels);
        for length in lengths.each_mut() {
            *length = self.length(*length);
        }
        lengths
    }

    /// Buffers that hold one number, or any numbers.
    fn buffers(&mut self, lengths: Lengths) -> Buffers {
        let number = self.number();
        let rng = &mut Rng::for_case(number.into(), 0);
        match self.byte() % 3 {
            0 => Buffers::of(lengths).filled(number),
            1 => Buffers::of(lengths).filled_by(|| rng.below(lengths.labels as u32 + 2)),
            _ => Buffers::of(lengths).filled_by(|| rng.bits() as u32),
        }
    }

    /// An image of these colours, in so many bytes.
    fn image(&mut self, colors: &[Rgba], length: usize) -> Vec<u8> {
        let mut image: Vec<u8> = (0..length.div_ceil(CHANNELS))
            .flat_map(|_| colors[usize::from(self.byte()) % colors.len()])
            .collect();
        image.truncate(length);
        image
    }

    /// Puts any numbers at any places.
    fn damage(&mut self, buffers: &mut Buffers) {
        for _ in 0..self.byte() % 16 {
            let buffer = usize::from(self.byte() % 4);
            let place = usize::from(u16::from_le_bytes(self.bytes()));
            let number = self.number();
            let numbers = &mut *buffers.each_mut()[buffer];
            if !numbers.is_empty() {
                let place = place % numbers.len();
                numbers[place] = number;
            }
        }
    }
}

/// The rules decide which numbers the calls must answer, the original what an accepted run leaves.
fn trial(from: &mut Bytes) -> Result<(), Difference> {
    if fault() == "short" {
        call::lend_short();
    }
    let colors = [(); COLORS].map(|()| from.bytes());
    let settings = from.settings(&colors);
    let size = [(); 2].map(|()| 1 + u32::from(from.byte()) % LONGEST);
    if from.byte() % 2 == 0 {
        run(from, &colors, settings, size.into())
    } else {
        sheet(from, &colors, settings, size.into())
    }
}

/// Both kinds of runs; where one is accepted, painting, rows and storing from what it leaves.
fn run(
    from: &mut Bytes,
    colors: &[Rgba],
    settings: Settings,
    size: (u32, u32),
) -> Result<(), Difference> {
    let pixels = (size.0 * size.1) as usize;
    let (width, height) = from.told_size(size);
    let lengths = from.lengths(pixels);
    let lent = from.buffers(lengths);
    let picture = vec![from.byte(); from.length(CHANNELS * pixels)];
    let action = match settings.keying_action {
        KeyingAction::Keep => 0,
        KeyingAction::Discard => from.number().max(1),
    };
    let length = from.length(CHANNELS * pixels);
    let image = from.image(colors, length);
    let call = Call {
        settings: &settings,
        action,
        width,
        height,
        image: &image,
    };
    let (shift, size) = (settings.is_same_color_a, (width, height));
    let numbers = [
        refusals::run(shift, size, length, lengths),
        refusals::run_and_paint(shift, size, length, lengths, picture.len()),
    ];
    if numbers[0] == 0 {
        let mut expected = settings.clone();
        if fault() == "expectation" {
            expected.hollow_neighbours ^= 1;
        }
        let case = Case::new(expected, width, height, image.clone()).expect("checks 1 to 4 pass");
        differ::accepted(&case, &call, &lent)?;
    }
    if numbers[1] != 0 {
        differ::refused(&call, &lent, &picture, numbers)?;
    }
    Ok(())
}

/// Painting, rows and storing from what a run left, damaged, or from any numbers.
fn sheet(
    from: &mut Bytes,
    colors: &[Rgba],
    mut settings: Settings,
    (width, height): (u32, u32),
) -> Result<(), Difference> {
    settings.is_same_color_a &= 7;
    let pixels = (width * height) as usize;
    let told = from.told_size((width, height));
    let lengths = from.lengths(pixels);
    let other = from.buffers(Lengths::exact(pixels));
    let is_left = from.byte() < 224;
    let y = from.count(height - 1);
    let picture = vec![from.byte(); from.length(CHANNELS * pixels)];
    let image = from.image(colors, CHANNELS * pixels);
    let case = Case::new(settings, width, height, image).expect("checks 1 to 4 pass");
    let right = original::answer(&case);
    let mut buffers = if is_left { other.after(&right) } else { other };
    for (buffer, length) in buffers.each_mut().into_iter().zip(lengths.each()) {
        buffer.resize(length, u32::MAX);
        buffer.shrink_to_fit();
    }
    from.damage(&mut buffers);
    let sheet = Sheet {
        width: told.0,
        height: told.1,
        n: from.count(right.n()),
        m: from.count(right.m()),
    };
    let fitting = if sheet.n.max(sheet.m) < LENDABLE {
        Sheet {
            width,
            height,
            ..sheet
        }
    } else {
        Sheet::of(&case, &right)
    };
    let destination = vec![from.byte(); from.length(fitting.stored_length())];
    differ::any_sheet(sheet, &buffers, &picture, y, &destination)
}
