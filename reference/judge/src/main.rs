//! The command line of the judge.

mod commands;
mod selection;

use std::io::{self, BufWriter, Write};
use std::process::ExitCode;

use commands::COMMANDS;

/// Why a command did not succeed.
enum Failure {
    /// What was asked for can't be done: wrong options, malformed input, an unreadable file.
    Refused(String),
    /// A difference was found, and has been printed.
    Different,
    /// The output could not be written.
    Output(io::Error),
}

impl From<io::Error> for Failure {
    fn from(error: io::Error) -> Self {
        Failure::Output(error)
    }
}

impl From<String> for Failure {
    fn from(message: String) -> Self {
        Failure::Refused(message)
    }
}

impl From<&str> for Failure {
    fn from(message: &str) -> Self {
        Failure::Refused(message.to_string())
    }
}

fn main() -> ExitCode {
    let args: Vec<String> = std::env::args().skip(1).collect();
    let mut out = BufWriter::new(io::stdout().lock());
    let result = run(&args, &mut out).and_then(|()| Ok(out.flush()?));
    let status = match result {
        Ok(()) => 0,
        // The reader of the output has seen enough.
        Err(Failure::Output(error)) if error.kind() == io::ErrorKind::BrokenPipe => 0,
        Err(Failure::Different) => 1,
        Err(Failure::Output(error)) => complain(&format!("the output: {error}")),
        Err(Failure::Refused(message)) => complain(&message),
    };
    let _ = out.flush();
    ExitCode::from(status)
}

fn complain(message: &str) -> u8 {
    eprintln!("judge: {message}");
    2
}

fn run(args: &[String], out: &mut dyn Write) -> Result<(), Failure> {
    let Some((name, args)) = args.split_first() else {
        return Err(format!("a command is missing\n\n{}", overview()).into());
    };
    if is_help(name) {
        return Ok(out.write_all(overview().as_bytes())?);
    }
    let Some(command) = COMMANDS.iter().find(|command| command.name == name) else {
        return Err(format!("there is no command {name:?}\n\n{}", overview()).into());
    };
    if args.iter().any(|arg| is_help(arg)) {
        return Ok(out.write_all((command.help)().as_bytes())?);
    }
    (command.run)(args, out)
}

fn is_help(arg: &str) -> bool {
    arg == "--help" || arg == "-h"
}

fn overview() -> String {
    let lines: String = COMMANDS
        .iter()
        .map(|command| format!("  judge {:8} {}\n", command.name, command.summary))
        .collect();
    format!(
        "The original color_clusters as the judge of its port.\n\n{lines}\n\
         judge COMMAND --help says more.\n\
         Exit status: 0 success, 1 a difference was found, 2 bad usage or bad input.\n"
    )
}
