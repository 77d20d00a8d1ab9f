//! `judge compare`

use std::io::Write;

use judge::compare::compare;
use judge::text;

use crate::selection::{self, Selection};
use crate::Failure;

const COUNT: u64 = 100_000;

pub fn help() -> String {
    let says = format!(
        "Compares the model with the original on N cases ({COUNT}, or the whole of an enumeration):\n\
         the whole answer, and the labels with which stage 1 ends. The status is 1 where they\n\
         differ; the first such case is printed."
    );
    selection::help("compare", &says)
}

pub fn run(args: &[String], out: &mut dyn Write) -> Result<(), Failure> {
    let selection = Selection::parse(args, COUNT, true)?;
    let found = compare(selection.indices.clone(), |index| selection.case(index));
    let name = selection.name();
    writeln!(
        out,
        "{} {name} cases compared, {} differ",
        found.compared, found.differ
    )?;
    match found.first {
        None => Ok(()),
        Some(case) => {
            writeln!(out, "{}", text::format_case(&case))?;
            Err(Failure::Different)
        }
    }
}
