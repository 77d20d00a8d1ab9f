//! `judge cases`

use std::io::Write;

use judge::text;

use crate::selection::{self, Selection};
use crate::Failure;

const COUNT: u64 = 10;

pub fn help() -> String {
    let says = format!("Prints N cases ({COUNT}) of one kind, from index I (0) on.");
    selection::help("cases", &says)
}

pub fn run(args: &[String], out: &mut dyn Write) -> Result<(), Failure> {
    let selection = Selection::parse(args, COUNT, false)?;
    for index in selection.indices.clone() {
        writeln!(out, "{}", text::format_case(&selection.case(index)))?;
    }
    Ok(())
}
