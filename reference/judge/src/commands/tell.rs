//! `judge tell`

use std::fs;
use std::io::Write;

use judge::model::Reading;
use judge::options::Options;
use judge::{record, tell};

use crate::Failure;

const DEFAULT_PATH: &str = "answers.bin";

pub fn help() -> String {
    format!(
        "judge tell [FILE]\n\n\
         Checks that the model gives every answer recorded in FILE ({DEFAULT_PATH}). Then counts,\n\
         for each wrong reading of the rules, the recorded answers from which it differs. The\n\
         status is 1 where the model is wrong or a wrong reading differs from none.\n"
    )
}

pub fn run(args: &[String], out: &mut dyn Write) -> Result<(), Failure> {
    let options = Options::parse(args, &[], &[])?.at_most(1)?;
    let path = options
        .positional
        .first()
        .map_or(DEFAULT_PATH, String::as_str);
    let bytes = fs::read(path).map_err(|error| format!("{path}: {error}"))?;
    let recorded = record::decode(&bytes).map_err(|message| format!("{path}: {message}"))?;

    let wrong = tell::count_differing(&recorded, Reading::Right);
    writeln!(
        out,
        "{} recorded answers; the model differs from {wrong}\n",
        recorded.len()
    )?;
    writeln!(out, "| Wrong reading | Answers that differ |\n|---|---|")?;
    let mut untold = 0;
    for &reading in Reading::WRONG {
        let told = tell::count_differing(&recorded, reading);
        untold += u32::from(told == 0);
        writeln!(out, "| {} | {told} |", reading.says())?;
    }
    writeln!(
        out,
        "\n{} wrong readings, {untold} not told apart",
        Reading::WRONG.len()
    )?;
    if wrong == 0 && untold == 0 {
        Ok(())
    } else {
        Err(Failure::Different)
    }
}
