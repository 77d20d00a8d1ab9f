//! Where a chart is read from and a sheet goes to: a file, or `-`.

use std::ffi::OsString;
use std::fs::{self, File};
use std::io::{self, ErrorKind, Read};
use std::path::PathBuf;

use crate::failure::Failure;

/// A file, or standard input or output.
#[derive(Clone, Debug, PartialEq, Eq)]
pub enum Place {
    Standard,
    File(PathBuf),
}

impl From<OsString> for Place {
    fn from(word: OsString) -> Self {
        if word == "-" {
            Place::Standard
        } else {
            Place::File(word.into())
        }
    }
}

impl Place {
    /// How messages call a chart at this place.
    pub fn chart_name(&self) -> String {
        self.name("standard input")
    }

    /// How messages call a sheet at this place.
    pub fn sheet_name(&self) -> String {
        self.name("standard output")
    }

    fn name(&self, standard: &str) -> String {
        match self {
            Place::Standard => standard.to_string(),
            Place::File(path) => path.display().to_string(),
        }
    }

    /// Opens what is to be read.
    pub fn open(&self) -> Result<Box<dyn Read>, Failure> {
        let Place::File(path) = self else {
            return Ok(Box::new(io::stdin()));
        };
        // A pipe is opened only once, so a folder is looked for first.
        if fs::metadata(path)
            .map_err(|error| unreadable(&error))?
            .is_dir()
        {
            return Err(Failure::File("it is a folder, not a file".to_string()));
        }
        let file = File::open(path).map_err(|error| unreadable(&error))?;
        Ok(Box::new(file))
    }
}

/// Reads at most `count` bytes.
pub fn up_to(input: &mut dyn Read, count: u64) -> Result<Vec<u8>, Failure> {
    let mut bytes = Vec::new();
    let read = input.take(count).read_to_end(&mut bytes);
    read.map_err(|error| unreadable(&error))?;
    Ok(bytes)
}

/// The failure for a file that can't be read.
pub fn unreadable(error: &io::Error) -> Failure {
    Failure::File(match error.kind() {
        ErrorKind::NotFound => "there is no such file".to_string(),
        ErrorKind::PermissionDenied => "it may not be read by you".to_string(),
        _ => format!("it can't be read: {error}"),
    })
}
