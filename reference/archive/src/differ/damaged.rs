//! Damaged sheets, which the rules refuse, or paint and store as they are.

use judge::case::{Case, Settings, CHANNELS, MAX_PIXELS};
use judge::cases::{self, worked};
use judge::rng::Rng;
use judge::{original, text};

use super::damage::{around, Damaged};
use super::held::What;
use super::{lending, refused, Difference, Room};
use crate::sheet::Sheet;

/// Sets the draws apart from those for the other cases.
const DRAWS: u64 = 0x5eed_0003;

/// One sheet in so many is large enough for more entries than two bytes can count.
const LARGE: u32 = 500;

/// Sizes of such sheets.
const LARGE_SIZES: [(u32, u32); 4] = [(256, 128), (1, 32_768), (250, 260), (65_000, 1)];

/// How many damages are done, each as often as it stands here.
const DAMAGES: [u32; 9] = [0, 1, 1, 1, 1, 2, 2, 3, 4];

/// How many of a hundred pictures and destinations have the right length.
const RIGHT: u32 = 85;

/// A damaged sheet, and what else the calls over it are given.
struct Trial {
    /// The run that left the sheet.
    case: Case,
    damaged: Damaged,
    picture: Vec<u8>,
    destination: Vec<u8>,
    y: u32,
}

/// Compares the damaged case at `index`.
pub fn compare(seed: u64, index: u64, room: Room) -> Result<(), Difference> {
    let trial = Trial::draw(&mut Rng::for_case(seed ^ DRAWS, index), room);
    trial.hold().map_err(|what| Difference {
        call: trial.describe(),
        what,
    })
}

impl Trial {
    fn draw(rng: &mut Rng, room: Room) -> Self {
        let is_large = rng.below(LARGE) == 0;
        let case = if is_large {
            large(rng)
        } else {
            cases::mixed(rng.bits(), 0)
        };
        let answer = original::answer(&case);
        let mut damaged = Damaged::not_yet(rng, &case, &answer, room);
        for _ in 0..rng.pick(&DAMAGES) {
            damaged.damage(rng);
        }
        if is_large {
            damaged.crowd(rng);
        }
        let fitted = if is_modest(damaged.sheet) {
            damaged.sheet
        } else {
            Sheet::of(&case, &answer)
        };
        Self {
            picture: lending::bytes(right_or_near(rng, CHANNELS * fitted.pixels())),
            destination: lending::bytes(right_or_near(rng, fitted.stored_length())),
            y: any_row(rng, damaged.sheet.height),
            case,
            damaged,
        }
    }

    fn hold(&self) -> Result<(), What> {
        let Damaged { sheet, buffers, .. } = &self.damaged;
        super::calls_over(*sheet, buffers, &self.picture, self.y, &self.destination)
    }

    /// The run, what the calls are given, and what was changed in the buffers.
    fn describe(&self) -> String {
        let Damaged {
            sheet,
            buffers,
            changes,
            ..
        } = &self.damaged;
        format!(
            "{}\nthen w {}, h {}, n {}, m {}, y {}; lent: {}, picture {}, destination {}\n\
             changed: {}",
            text::format_case(&self.case),
            sheet.width,
            sheet.height,
            sheet.n,
            sheet.m,
            self.y,
            buffers.lengths(),
            self.picture.len(),
            self.destination.len(),
            changes.join(", "),
        )
    }
}

/// A flat image on which m may be above 65,535.
fn large(rng: &mut Rng) -> Case {
    let (width, height) = rng.pick(&LARGE_SIZES);
    let pixels = vec![worked::P; (width * height) as usize];
    Case::of_pixels(Settings::default(), width, height, &pixels)
}

/// Whether picture and destination of a sheet can be lent, though it may be refused.
fn is_modest(sheet: Sheet) -> bool {
    let pixels = u64::from(sheet.width) * u64::from(sheet.height);
    [pixels, sheet.n.into(), sheet.m.into()]
        .iter()
        .all(|&number| number < 3 * MAX_PIXELS)
}

fn right_or_near(rng: &mut Rng, length: usize) -> usize {
    if rng.percent(RIGHT) {
        length
    } else {
        refused::near(rng, length)
    }
}

fn any_row(rng: &mut Rng, height: u32) -> u32 {
    match rng.below(4) {
        0 | 1 => around(rng, height),
        2 => rng.below(height.max(1)),
        _ => rng.pick(&[0, u32::MAX]),
    }
}

#[cfg(test)]
mod tests {
    use super::*;
    use crate::refusals;

    #[test]
    fn draws_meet_every_number() {
        let mut met = [[0; 14]; 3];
        for index in 0..4_000 {
            let trial = Trial::draw(&mut Rng::for_case(1, index), Room::Ample);
            let Damaged { sheet, buffers, .. } = &trial.damaged;
            let picture = trial.picture.len();
            let numbers = [
                refusals::paint(*sheet, buffers, picture),
                refusals::row_check((sheet.width, sheet.height), picture, trial.y),
                refusals::store(*sheet, buffers, trial.destination.len()),
            ];
            for (times, number) in met.iter_mut().zip(numbers) {
                times[number as usize] += 1;
            }
        }
        let [paint, row, store] = met;
        let often =
            |times: [u32; 14], numbers: &[usize]| numbers.iter().all(|&number| times[number] > 20);
        assert!(often(paint, &[0, 2, 3, 5, 6, 8, 9, 10]), "{met:?}");
        assert!(often(row, &[0, 2, 3, 6, 11]), "{met:?}");
        assert!(often(store, &[0, 2, 3, 5, 12, 13]), "{met:?}");
    }
}
