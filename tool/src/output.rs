//! What is printed on standard output.

use std::io::{self, ErrorKind, Write};

use serde::Serialize;

use crate::failure::Failure;

/// Prints text. A reader that has seen enough is no failure.
pub fn print(text: &str) -> Result<(), Failure> {
    match write(text.as_bytes()) {
        Err(error) if error.kind() == ErrorKind::BrokenPipe => Ok(()),
        result => result.map_err(|error| unwritten(&error)),
    }
}

/// Prints a line of JSON.
pub fn print_json(value: &impl Serialize) -> Result<(), Failure> {
    let line = serde_json::to_string(value);
    let line =
        line.map_err(|error| Failure::Internal(format!("no JSON could be made: {error}")))?;
    print(&(line + "\n"))
}

/// Writes the bytes of a picture, which must all arrive.
pub fn write_picture(bytes: &[u8]) -> Result<(), Failure> {
    write(bytes).map_err(|error| unwritten(&error))
}

fn write(bytes: &[u8]) -> io::Result<()> {
    let mut out = io::stdout().lock();
    out.write_all(bytes)?;
    out.flush()
}

fn unwritten(error: &io::Error) -> Failure {
    Failure::File(format!("standard output can't be written: {error}"))
}
