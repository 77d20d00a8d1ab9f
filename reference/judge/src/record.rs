//! The recorded answers: one file of numbers in LEB128 and raw bytes.

use crate::answer::{Answer, Slot, SLOT};
use crate::case::{Case, KeyingAction, Settings, CHANNELS};
use crate::cases::{self, Kind, TINY_CASES};
use crate::model::Reading;
use crate::{leb128, original, tell};

/// A case and the original's answer to it.
pub type Recorded = (Case, Answer);

/// The seed of the recorded cases.
const SEED: u64 = 0x62088c89;

/// How many cases of each seeded kind are recorded. The worked ones are all there.
const COUNTS: [(Kind, u64); 8] = [
    (Kind::Random, 450),
    (Kind::Strip, 250),
    (Kind::Extreme, 350),
    (Kind::Nested, 300),
    (Kind::Edge, 200),
    (Kind::Isolated, 300),
    (Kind::Crowded, 40),
    (Kind::Large, 40),
];

/// How many cases of the tiny enumeration are recorded, evenly spread.
const TINY: u64 = 800;

/// The sizes of the two largest images.
const LARGEST: [(u32, u32); 2] = [(60, 40), (40, 60)];

/// Every wrong reading is to be told by at least this many recorded answers.
const TELLING: u64 = 16;

/// How many mixed cases are searched for answers that tell a wrong reading.
const SEARCHED: u64 = 1_000_000;

/// The recorded cases with the original's answers, in the order of the file.
pub fn recorded() -> Vec<Recorded> {
    let mut recorded: Vec<Recorded> = chosen().map(with_answer).collect();
    for &reading in Reading::WRONG {
        let told = tell::count_differing(&recorded, reading);
        let missing = TELLING.saturating_sub(told) as usize;
        let more: Vec<Recorded> = (0..SEARCHED)
            .map(|i| cases::mixed(SEED, i))
            .filter(|case| tell::tells(case, reading))
            .take(missing)
            .map(with_answer)
            .collect();
        recorded.extend(more);
    }
    recorded
}

/// Cases of all kinds.
fn chosen() -> impl Iterator<Item = Case> {
    let worked = cases::worked::all().into_iter().map(|(_, case)| case);
    let tiny = (0..TINY).map(|i| cases::case(Kind::Tiny, SEED, i * (TINY_CASES / TINY)));
    let seeded = COUNTS
        .into_iter()
        .flat_map(|(kind, count)| (0..count).map(move |i| cases::case(kind, SEED, i)));
    let largest = (0..)
        .zip(LARGEST)
        .map(|(i, (width, height))| cases::sized(SEED, i, width, height));
    worked.chain(tiny).chain(seeded).chain(largest)
}

fn with_answer(case: Case) -> Recorded {
    let answer = original::answer(&case);
    (case, answer)
}

/// The file: the number of cases, then each case with its answer.
pub fn encode(recorded: &[Recorded]) -> Vec<u8> {
    let mut bytes = Vec::new();
    leb128::write(&mut bytes, recorded.len() as u32);
    for (case, answer) in recorded {
        encode_case(&mut bytes, case);
        encode_answer(&mut bytes, answer);
    }
    bytes
}

fn encode_case(bytes: &mut Vec<u8>, case: &Case) {
    let settings = &case.settings;
    let action = match settings.keying_action {
        KeyingAction::Keep => 0,
        KeyingAction::Discard => 1,
    };
    write_all(bytes, &settings.numbers().map(|number| number as u32));
    write_all(bytes, &settings.key.map(u32::from));
    write_all(bytes, &[action, case.width, case.height]);
    bytes.extend_from_slice(&case.image);
}

fn encode_answer(bytes: &mut Vec<u8>, answer: &Answer) {
    write_all(bytes, &[answer.n(), answer.m()]);
    write_all(bytes, &answer.labels);
    write_all(bytes, &answer.links);
    write_all(bytes, answer.table.as_flattened());
    write_all(bytes, &answer.outputs);
    bytes.extend_from_slice(&answer.picture);
}

fn write_all(bytes: &mut Vec<u8>, numbers: &[u32]) {
    for &number in numbers {
        leb128::write(bytes, number);
    }
}

/// Reads the file back, and says what is wrong where it is malformed.
pub fn decode(bytes: &[u8]) -> Result<Vec<Recorded>, String> {
    let mut reader = Reader { rest: bytes };
    let count = reader.number().ok_or("the number of cases is missing")?;
    let mut recorded = Vec::new();
    for i in 1..=count {
        recorded.push(
            reader
                .case_and_answer()
                .map_err(|m| format!("case {i}: {m}"))?,
        );
    }
    if !reader.rest.is_empty() {
        return Err(format!("{} bytes after the last case", reader.rest.len()));
    }
    Ok(recorded)
}

struct Reader<'a> {
    rest: &'a [u8],
}

impl Reader<'_> {
    fn case_and_answer(&mut self) -> Result<Recorded, String> {
        let case = self.case()?;
        let answer = self.answer(&case).ok_or("the answer ends early")?;
        Ok((case, answer))
    }

    fn case(&mut self) -> Result<Case, String> {
        let (settings, action, width, height) = self.head().ok_or("the settings end early")?;
        let keying_action = match action {
            0 => KeyingAction::Keep,
            1 => KeyingAction::Discard,
            _ => return Err(format!("the action is {action}, not 0 or 1")),
        };
        let image = (width as usize)
            .checked_mul(height as usize)
            .and_then(|pixels| pixels.checked_mul(CHANNELS))
            .and_then(|bytes| self.bytes(bytes))
            .ok_or("the image ends early")?;
        let settings = Settings {
            keying_action,
            ..settings
        };
        Case::new(settings, width, height, image)
    }

    /// The settings but for the action, then the action, width and height.
    fn head(&mut self) -> Option<(Settings, u32, u32, u32)> {
        let settings = Settings {
            is_same_color_a: self.number()? as i32,
            is_same_color_b: self.number()? as i32,
            hierarchical: self.number()?,
            good_min_area: self.number()?,
            good_max_area: self.number()?,
            hollow_neighbours: self.number()?,
            deepen_diff: self.number()? as i32,
            key: [self.byte()?, self.byte()?, self.byte()?, self.byte()?],
            keying_action: KeyingAction::Keep,
        };
        Some((settings, self.number()?, self.number()?, self.number()?))
    }

    fn answer(&mut self, case: &Case) -> Option<Answer> {
        let pixels = case.area();
        let (n, m) = (self.number()?, self.number()?);
        Some(Answer {
            labels: self.numbers(pixels)?,
            links: self.numbers(pixels)?,
            table: (0..n).map(|_| self.slot()).collect::<Option<_>>()?,
            outputs: self.numbers(m)?,
            picture: self.bytes(CHANNELS * pixels as usize)?,
        })
    }

    fn slot(&mut self) -> Option<Slot> {
        self.numbers(SLOT as u32)?.try_into().ok()
    }

    fn numbers(&mut self, count: u32) -> Option<Vec<u32>> {
        (0..count).map(|_| self.number()).collect()
    }

    fn number(&mut self) -> Option<u32> {
        leb128::read(&mut self.rest)
    }

    /// A number that fits a byte.
    fn byte(&mut self) -> Option<u8> {
        self.number()?.try_into().ok()
    }

    fn bytes(&mut self, count: usize) -> Option<Vec<u8>> {
        let (taken, rest) = self.rest.split_at_checked(count)?;
        self.rest = rest;
        Some(taken.to_vec())
    }
}

#[cfg(test)]
mod tests {
    use super::*;

    const COMMITTED: &[u8] = include_bytes!("../../answers.bin");

    #[test]
    fn the_record_is_the_same_each_time() {
        assert!(
            encode(&recorded()) == COMMITTED,
            "answers.bin is out of date"
        );
    }

    #[test]
    fn the_replay_has_the_same_record() {
        assert!(
            include_bytes!("../../../crates/replay/stdin") == COMMITTED,
            "answers.bin and crates/replay/stdin differ"
        );
    }

    #[test]
    fn the_record_survives_the_round_trip() {
        let recorded: Vec<Recorded> = (0..200).map(|i| with_answer(cases::mixed(5, i))).collect();
        assert_eq!(decode(&encode(&recorded)), Ok(recorded));
    }

    #[test]
    fn broken_records_are_refused() {
        let whole = encode(&[with_answer(cases::mixed(5, 0))]);
        for end in 0..whole.len() {
            assert!(decode(&whole[..end]).is_err(), "cut at {end}");
        }
        assert!(decode(&[whole, vec![0]].concat()).is_err());
    }
}
