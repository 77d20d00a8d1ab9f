//! `judge answer`

use std::io::{self, BufRead, Write};

use judge::options::Options;
use judge::{original, text};

use crate::Failure;

pub fn help() -> String {
    format!(
        "judge answer [--json] < CASES\n\n\
         Reads one case a line and prints the original's answer to each. Fields, by spaces:\n\n  \
         {}\n\n\
         Numbers are decimal; key is rrggbbaa and image is 4 bytes a pixel, row by row, both in\n\
         hex. Empty lines and lines that begin with # are passed over.\n\n\
         An answer holds n and m; the labels with which stage 1 ends; labels and links; the 21\n\
         numbers of each slot; outputs; and the picture in hex. As text, an empty line ends it.\n\
         With --json it is one line.\n",
        text::FIELDS
    )
}

pub fn run(args: &[String], out: &mut dyn Write) -> Result<(), Failure> {
    let options = Options::parse(args, &[], &["--json"])?.at_most(0)?;
    for (i, line) in io::stdin().lock().lines().enumerate() {
        let at = |message: String| format!("line {}: {message}", i + 1);
        let line = line.map_err(|error| at(error.to_string()))?;
        if line.trim().is_empty() || line.starts_with('#') {
            continue;
        }
        let case = text::parse_case(&line).map_err(at)?;
        let answer = original::answer(&case);
        let stage_1_labels = original::stage_1_labels(&case);
        let text = if options.flag("--json") {
            text::format_answer_json(&answer, &stage_1_labels)
        } else {
            text::format_answer(&answer, &stage_1_labels) + "\n"
        };
        out.write_all(text.as_bytes())?;
    }
    Ok(())
}
