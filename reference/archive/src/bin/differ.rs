//! `differ`: holds the library against the original.

use std::process::ExitCode;

use archive::call;
use archive::differ::{damaged, large, refused, small, workers, Difference, Room};
use judge::options::Options;

const HELP: &str = "\
differ [--small N] [--large N] [--refused N] [--damaged N] [--seed S] [--exact] [--short]

Compares the proved library with the original on N small images (1000000) and N images of 10,000 to
65,000 pixels (1000): the run, the run with painting, and painting, rows and storing from what it
left. Then N runs that must be refused (100000), without and with painting, and N sheets damaged
after a run (100000), which are painted and stored as the rules say, or refused. Compared are the
answer, every number of every buffer and every byte, also what must stay as it was.

A case depends on its kind, its index and the seed S (1), a small one also on N: half of the small
images are the enumeration of tiny ones from its beginning, the others are random.

Each buffer is a block of memory of its own, and most are longer than asked; with --exact those of
accepted runs are just as long as asked. Under valgrind every access beyond a block is an error, and
every use of what a call has no reason to read. --short tells the library that each buffer of
numbers is one longer than it is, which valgrind must report.

Progress goes to standard error. At the first difference the run is printed in the judge's form of a
case, with the lengths lent, the damage done and what differs.
Exit status: 0 no difference, 1 a difference was found, 2 bad usage.
";

/// How many comparisons a worker takes at once.
const MANY: u64 = 500;

/// What is asked for: how many comparisons of each sort, and how.
#[derive(Clone, Copy)]
struct Asked {
    small: u64,
    large: u64,
    refused: u64,
    damaged: u64,
    seed: u64,
    room: Room,
}

fn main() -> ExitCode {
    let args: Vec<String> = std::env::args().skip(1).collect();
    if args.iter().any(|arg| arg == "--help" || arg == "-h") {
        print!("{HELP}");
        return ExitCode::SUCCESS;
    }
    match parse(&args) {
        Ok(asked) => report(asked, compare(asked)),
        Err(message) => {
            eprintln!("differ: {message}");
            ExitCode::from(2)
        }
    }
}

fn parse(args: &[String]) -> Result<Asked, String> {
    let names = ["--small", "--large", "--refused", "--damaged", "--seed"];
    let options = Options::parse(args, &names, &["--exact", "--short"])?.at_most(0)?;
    if options.flag("--short") {
        call::lend_short();
    }
    Ok(Asked {
        small: options.number("--small", 1_000_000)?,
        large: options.number("--large", 1_000)?,
        refused: options.number("--refused", 100_000)?,
        damaged: options.number("--damaged", 100_000)?,
        seed: options.number("--seed", 1)?,
        room: if options.flag("--exact") {
            Room::Exact
        } else {
            Room::Ample
        },
    })
}

/// A difference, with where it was found.
struct Found {
    sort: &'static str,
    index: u64,
    difference: Difference,
}

fn compare(asked: Asked) -> Result<(), Found> {
    let Asked { seed, room, .. } = asked;
    let requests = refused::Requests::new(seed);
    compare_sort("small", asked.small, MANY, |index| {
        small::compare(seed, index, asked.small, room)
    })?;
    compare_sort("large", asked.large, 1, |index| {
        large::compare(seed, index, room)
    })?;
    compare_sort("refused", asked.refused, MANY, |index| {
        requests.compare(index)
    })?;
    compare_sort("damaged", asked.damaged, MANY, |index| {
        damaged::compare(seed, index, room)
    })
}

/// Compares all cases of one sort, `stride` of them at a time.
fn compare_sort(
    sort: &'static str,
    count: u64,
    stride: u64,
    compare: impl Fn(u64) -> Result<(), Difference> + Sync,
) -> Result<(), Found> {
    workers::compare_all(sort, count, stride, compare).map_err(|(index, difference)| Found {
        sort,
        index,
        difference,
    })
}

fn report(asked: Asked, result: Result<(), Found>) -> ExitCode {
    let Asked {
        small,
        large,
        refused,
        damaged,
        seed,
        ..
    } = asked;
    match result {
        Ok(()) => {
            println!(
                "{small} small, {large} large, {refused} refused, {damaged} damaged: 0 differ"
            );
            ExitCode::SUCCESS
        }
        Err(Found {
            sort,
            index,
            difference,
        }) => {
            println!("{difference}");
            println!("the {sort} case {index} under seed {seed} differs; not compared further");
            ExitCode::from(1)
        }
    }
}
