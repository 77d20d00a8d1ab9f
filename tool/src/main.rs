//! Makes coloured sector sheets from charts, and explains them, over the proved library.
#![deny(unsafe_code)]

mod batch;
mod cluster;
mod colour;
mod commands;
mod explain;
mod failure;
mod image;
mod library;
mod nesting;
mod outline;
mod output;
mod place;
mod refusal;
mod run;
mod settings;
mod sheet;
mod stored;
mod text;
mod writing;

use std::process::ExitCode;

use clap::{Parser, Subcommand};

use commands::check::Check;
use commands::clusters::Clusters;
use commands::explain::Explain;
use commands::make::Make;
use failure::{Failure, Outcome};

/// Makes coloured sector sheets from charts, and explains every patch and shade of them
#[derive(Parser)]
#[command(
    name = "sheet",
    version,
    disable_help_subcommand = true,
    after_help = "sheet COMMAND --help says more.\n\
        A refusal is told by its number: docs/RULES.md, rule 3.2, has them all.\n\
        Exit status: 0 done, 1 a refusal, a failure or a difference, 2 bad usage."
)]
struct Program {
    #[command(subcommand)]
    command: Command,
}

#[derive(Subcommand)]
enum Command {
    Make(Make),
    Explain(Explain),
    Clusters(Clusters),
    Check(Check),
}

fn main() -> ExitCode {
    let Program { command } = Program::parse();
    if let Err(error) = writing::remove_parts_on_signals() {
        eprintln!("sheet: signals can't be watched: {error}");
        return ExitCode::from(1);
    }
    let (name, result) = match command {
        Command::Make(make) => ("make", make.run()),
        Command::Explain(explain) => ("explain", explain.run()),
        Command::Clusters(clusters) => ("clusters", clusters.run()),
        Command::Check(check) => ("check", check.run()),
    };
    ExitCode::from(match result {
        Ok(Outcome::Good) => 0,
        Ok(Outcome::Bad) => 1,
        Err(Failure::Usage(text)) => {
            eprintln!("sheet: {text}\n\n`sheet {name} --help` says more.");
            2
        }
        Err(failure) => {
            eprintln!("sheet: {failure}");
            1
        }
    })
}
