//! Why something was not done.

use std::fmt;

/// Why a command, or one chart of it, failed. The text is for the user.
#[derive(Debug)]
pub enum Failure {
    /// The command line asks for what makes no sense.
    Usage(String),
    /// The library refused, with the number of its check.
    Refused { number: u32, sentence: String },
    /// A file could not be read or written, or is not what it should be.
    File(String),
    /// A statement about the sheet does not hold: a fault of this program.
    Internal(String),
}

impl Failure {
    /// The number of the library's refusal, if it was one.
    pub fn number(&self) -> Option<u32> {
        match self {
            Failure::Refused { number, .. } => Some(*number),
            _ => None,
        }
    }
}

impl fmt::Display for Failure {
    fn fmt(&self, out: &mut fmt::Formatter) -> fmt::Result {
        match self {
            Failure::Usage(text) | Failure::File(text) => out.write_str(text),
            Failure::Refused { number, sentence } => write!(out, "refusal {number}: {sentence}"),
            Failure::Internal(text) => write!(
                out,
                "internal error, so nothing is stated: {text}; please report this with the chart"
            ),
        }
    }
}

/// Whether all that was asked for went well, or something (already reported) did not.
#[derive(Clone, Copy, Debug, PartialEq, Eq)]
pub enum Outcome {
    Good,
    Bad,
}
