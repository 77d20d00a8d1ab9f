//! The commands, one module each.

mod answer;
mod cases;
mod compare;
mod record;
mod tell;

use std::io::Write;

use crate::Failure;

/// A command of the judge.
pub struct Command {
    pub name: &'static str,
    pub summary: &'static str,
    pub help: fn() -> String,
    pub run: fn(&[String], &mut dyn Write) -> Result<(), Failure>,
}

/// All commands.
pub const COMMANDS: [Command; 5] = [
    Command {
        name: "answer",
        summary: "prints the original's answers to the cases on standard input",
        help: answer::help,
        run: answer::run,
    },
    Command {
        name: "cases",
        summary: "prints generated cases, in the form that `answer` reads",
        help: cases::help,
        run: cases::run,
    },
    Command {
        name: "record",
        summary: "writes the recorded answers",
        help: record::help,
        run: record::run,
    },
    Command {
        name: "tell",
        summary: "shows which wrong readings the recorded answers tell apart",
        help: tell::help,
        run: tell::run,
    },
    Command {
        name: "compare",
        summary: "compares the model with the original on many cases",
        help: compare::help,
        run: compare::run,
    },
];
