//! `judge record`

use std::fs;
use std::io::Write;

use judge::options::Options;
use judge::record;

use crate::Failure;

pub fn help() -> String {
    "judge record OUT\n\n\
     Writes cases of every kind with the original's answers to the file OUT, byte for byte the\n\
     same each time. docs/REFERENCE.md tells the format.\n"
        .to_string()
}

pub fn run(args: &[String], out: &mut dyn Write) -> Result<(), Failure> {
    let options = Options::parse(args, &[], &[])?.at_most(1)?;
    let [path] = options.positional.as_slice() else {
        return Err("record needs the name of the file to write"
            .to_string()
            .into());
    };
    let recorded = record::recorded();
    let bytes = record::encode(&recorded);
    fs::write(path, &bytes).map_err(|error| format!("{path}: {error}"))?;
    writeln!(
        out,
        "{path}: {} cases, {} bytes",
        recorded.len(),
        bytes.len()
    )?;
    Ok(())
}
