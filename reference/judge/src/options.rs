//! The options of a command: `--name value` or `--flag`, in any order, and positional arguments.

use std::str::FromStr;

/// The options that were given.
pub struct Options {
    named: Vec<(String, String)>,
    flags: Vec<String>,
    pub positional: Vec<String>,
}

impl Options {
    /// Sorts the arguments; `names` take a value, `flags` do not.
    pub fn parse(args: &[String], names: &[&str], flags: &[&str]) -> Result<Self, String> {
        let mut options = Self {
            named: Vec::new(),
            flags: Vec::new(),
            positional: Vec::new(),
        };
        let mut args = args.iter();
        while let Some(arg) = args.next() {
            if names.contains(&arg.as_str()) {
                let value = args.next().ok_or(format!("{arg} needs a value"))?;
                options.named.push((arg.clone(), value.clone()));
            } else if flags.contains(&arg.as_str()) {
                options.flags.push(arg.clone());
            } else if arg.starts_with('-') {
                return Err(format!("there is no option {arg}"));
            } else {
                options.positional.push(arg.clone());
            }
        }
        Ok(options)
    }

    /// Refuses more than `count` positional arguments.
    pub fn at_most(self, count: usize) -> Result<Self, String> {
        match self.positional.get(count) {
            Some(extra) => Err(format!("{extra:?} is one argument too many")),
            None => Ok(self),
        }
    }

    /// The value of an option; the last one counts.
    pub fn value(&self, name: &str) -> Option<&str> {
        let found = self.named.iter().rev().find(|(given, _)| given == name)?;
        Some(&found.1)
    }

    /// The number that an option was given, or `default`.
    pub fn number<T: FromStr>(&self, name: &str, default: T) -> Result<T, String> {
        match self.value(name) {
            None => Ok(default),
            Some(text) => text
                .parse()
                .map_err(|_| format!("{name} is {text:?}, not a number of its range")),
        }
    }

    /// Whether a flag was given.
    pub fn flag(&self, name: &str) -> bool {
        self.flags.iter().any(|given| given == name)
    }
}

#[cfg(test)]
mod tests {
    use super::*;

    fn parse(line: &str) -> Result<Options, String> {
        let args: Vec<String> = line.split_whitespace().map(String::from).collect();
        Options::parse(&args, &["--seed"], &["--json"])
    }

    #[test]
    fn options_come_in_any_order() {
        let options = parse("out --json --seed 7").unwrap();
        assert_eq!(options.number("--seed", 1u64), Ok(7));
        assert!(options.flag("--json"));
        assert_eq!(options.positional, ["out"]);
        assert_eq!(parse("").unwrap().number("--seed", 1u64), Ok(1));
    }

    #[test]
    fn wrong_options_are_refused() {
        assert!(parse("--sed 7").is_err());
        assert!(parse("--seed").is_err());
        assert!(parse("--seed x").unwrap().number("--seed", 1u64).is_err());
        assert!(parse("a b").unwrap().at_most(1).is_err());
    }
}
