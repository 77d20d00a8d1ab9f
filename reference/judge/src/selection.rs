//! The cases that a command is asked for.

use std::ops::Range;

use judge::case::Case;
use judge::cases::{self, Kind};
use judge::options::Options;

/// A stretch of one kind of cases, or of a mix of the small kinds.
pub struct Selection {
    kind: Option<Kind>,
    seed: u64,
    pub indices: Range<u64>,
}

impl Selection {
    /// Reads the options. Without a count it is `count`, or the whole of an enumeration where
    /// `whole` is set.
    pub fn parse(args: &[String], count: u64, whole: bool) -> Result<Self, String> {
        let names = ["--kind", "--seed", "--from", "--count"];
        let options = Options::parse(args, &names, &[])?.at_most(0)?;
        let kind = options.value("--kind").map(kind_named).transpose()?;
        let total = kind.and_then(Kind::total);
        let from: u64 = options.number("--from", 0)?;
        let rest = total.map(|total| total.saturating_sub(from));
        let count = match rest {
            Some(rest) if whole => options.number("--count", rest)?,
            _ => options.number("--count", count)?,
        };
        let end = from
            .checked_add(count)
            .filter(|&end| total.map_or(true, |total| end <= total))
            .ok_or("--from and --count reach beyond the last case of the kind")?;
        Ok(Self {
            kind,
            seed: options.number("--seed", 1)?,
            indices: from..end,
        })
    }

    /// The case at an index.
    pub fn case(&self, index: u64) -> Case {
        match self.kind {
            Some(kind) => cases::case(kind, self.seed, index),
            None => cases::mixed(self.seed, index),
        }
    }

    /// What the cases are called.
    pub fn name(&self) -> &'static str {
        self.kind.map_or("mixed", Kind::name)
    }
}

/// The help of a command over selected cases; `says` tells what it does with them.
pub fn help(command: &str, says: &str) -> String {
    let kinds: String = Kind::ALL
        .iter()
        .map(|kind| format!("  {:9} {}\n", kind.name(), kind.describe()))
        .collect();
    format!(
        "judge {command} [--kind K] [--seed S] [--from I] [--count N]\n\n{says}\n\n\
         A case depends on kind, seed S (1) and index alone; worked and tiny are enumerations,\n\
         which know no seed. Without a kind, small kinds are mixed.\n\n{kinds}"
    )
}

fn kind_named(name: &str) -> Result<Kind, String> {
    Kind::named(name).ok_or(format!(
        "there is no kind {name:?}; judge cases --help lists them"
    ))
}

#[cfg(test)]
mod tests {
    use super::*;

    fn indices(line: &str, whole: bool) -> Result<Range<u64>, String> {
        let args: Vec<String> = line.split_whitespace().map(String::from).collect();
        Selection::parse(&args, 7, whole).map(|selection| selection.indices)
    }

    #[test]
    fn a_stretch_is_selected() {
        assert_eq!(indices("", false), Ok(0..7));
        assert_eq!(indices("--from 3 --count 2", false), Ok(3..5));
        assert_eq!(indices("--kind worked --from 3", true), Ok(3..11));
        assert_eq!(indices("--kind worked --from 3", false), Ok(3..10));
    }

    #[test]
    fn what_is_not_there_is_refused() {
        assert!(indices("--kind none", false).is_err());
        assert!(indices("--kind worked --count 12", false).is_err());
        assert!(indices("--from 18446744073709551615", false).is_err());
    }
}
