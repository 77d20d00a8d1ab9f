//! `bench`: times the library and the original on the same images, in one run, or calls the library
//! once for a profiler.

use std::hint::black_box;
use std::process::ExitCode;
use std::time::{Duration, Instant};

use archive::buffers::Buffers;
use archive::call::{self, Answer, Call};
use archive::differ;
use archive::images::{Texture, KEY};
use archive::sheet::Sheet;
use judge::case::{Case, KeyingAction, Settings, HIERARCHICAL_MAX};
use judge::options::Options;
use judge::original;
use judge::rng::Rng;

/// The textures that are timed without `--texture`.
const TEXTURES: [Texture; 7] = [
    Texture::Flat,
    Texture::Chart,
    Texture::SlightNoise,
    Texture::NoisyChart,
    Texture::Noise,
    Texture::KeyMarks,
    Texture::KeyNoise,
];

/// The size of the images, and of the one with the most clusters where both sides take a time of
/// pixels × clusters.
const SIZE: (u32, u32) = (250, 260);
const KEY_NOISE_SIZE: (u32, u32) = (100, 100);

const REPEATS: usize = 9;
const SEED: u64 = 1;

/// The medians of the original's and of the library's times, in seconds.
type Medians = (f64, f64);

/// Times one part of the work on both sides.
type Timer = fn(&mut Bench) -> Medians;

/// The parts that are timed.
const PARTS: [(&str, Timer); 3] = [
    ("run", time_run),
    ("paint", time_paint),
    ("run and paint", time_run_and_paint),
];

/// What is timed, or called once.
struct Plan {
    textures: Vec<Texture>,
    once: Option<Once>,
    repeats: usize,
    width: Option<u32>,
    height: Option<u32>,
}

/// The last call of the library where nothing is timed. Painting needs a run before it.
#[derive(Clone, Copy, PartialEq, Eq)]
enum Once {
    Run,
    Paint,
}

/// A case, and the library's memory, which is always as the call before left it.
struct Bench<'a> {
    case: &'a Case,
    buffers: Buffers,
    picture: Vec<u8>,
    repeats: usize,
}

impl<'a> Bench<'a> {
    fn new(case: &'a Case, repeats: usize) -> Self {
        Self {
            case,
            buffers: Buffers::exact(case.area() as usize),
            picture: vec![0; case.image.len()],
            repeats,
        }
    }

    /// Runs the library.
    fn run(&mut self) -> Sheet {
        let Answer { number, n, m } = call::run(&Call::of(self.case), &mut self.buffers);
        assert_eq!(number, 0, "the run is refused");
        Sheet {
            width: self.case.width,
            height: self.case.height,
            n,
            m,
        }
    }
}

fn main() -> ExitCode {
    let args: Vec<String> = std::env::args().skip(1).collect();
    if args.iter().any(|arg| arg == "--help" || arg == "-h") {
        print!("{}", help());
        return ExitCode::SUCCESS;
    }
    match parse(&args).and_then(|plan| run(&plan)) {
        Ok(status) => status,
        Err(message) => {
            eprintln!("bench: {message}");
            ExitCode::from(2)
        }
    }
}

fn help() -> String {
    let textures: String = Texture::ALL
        .iter()
        .map(|texture| format!("  {:12} {}\n", texture.name(), texture.describe()))
        .collect();
    format!(
        "bench [--texture T] [--repeats N] [--width W] [--height H]\n\
         bench --once run|paint [--texture T] [--width W] [--height H]\n\n\
         Times the original and the proved library on the same image, one after the other, N times\n\
         ({REPEATS}) after one time of each that is not counted, and prints the medians: of the run, of\n\
         painting what it left, and of both together. The ratio is the original's time divided by the\n\
         library's. Images are {}×{}, of key-noise {}×{}.\n\
         Settings are the defaults; under the textures with a key it is kept, and nothing deepens.\n\n\
         With --once nothing is timed, compared or printed, and the original is not called: on each\n\
         image the library runs once and, with paint, paints once. Counts of instructions are made so.\n\n\
         Without T: {}. All textures:\n\n{textures}\n\
         Exit status: 0 timed or called, 1 the two give different results, 2 bad usage.\n",
        SIZE.0,
        SIZE.1,
        KEY_NOISE_SIZE.0,
        KEY_NOISE_SIZE.1,
        TEXTURES.map(Texture::name).join(", "),
    )
}

fn parse(args: &[String]) -> Result<Plan, String> {
    let names = ["--texture", "--once", "--repeats", "--width", "--height"];
    let options = Options::parse(args, &names, &[])?.at_most(0)?;
    let side = |name: &str| match options.value(name) {
        None => Ok(None),
        Some(_) => options.number(name, 0).map(Some),
    };
    let textures = match options.value("--texture") {
        None => TEXTURES.to_vec(),
        Some(name) => vec![Texture::named(name).ok_or(format!(
            "there is no texture {name:?}; bench --help lists them"
        ))?],
    };
    let once = match options.value("--once") {
        None => None,
        Some("run") => Some(Once::Run),
        Some("paint") => Some(Once::Paint),
        Some(other) => return Err(format!("--once is {other:?}, not run or paint")),
    };
    let repeats = options.number("--repeats", REPEATS)?;
    if repeats == 0 {
        return Err("--repeats is 0".to_string());
    }
    Ok(Plan {
        textures,
        once,
        repeats,
        width: side("--width")?,
        height: side("--height")?,
    })
}

fn run(plan: &Plan) -> Result<ExitCode, String> {
    let cases = plan
        .textures
        .iter()
        .map(|&texture| Ok((texture, draw(plan, texture)?)))
        .collect::<Result<Vec<(Texture, Case)>, String>>()?;
    if let Some(last) = plan.once {
        for (_, case) in &cases {
            call_once(case, last);
        }
        return Ok(ExitCode::SUCCESS);
    }
    println!("| Texture | Size | Timed | Original, ms | Library, ms | Ratio |");
    println!("|---|---|---|---|---|---|");
    for (texture, case) in &cases {
        let mut bench = Bench::new(case, plan.repeats);
        if let Err(difference) = differ::accepted(case, &Call::of(case), &bench.buffers) {
            println!("{difference}");
            return Ok(ExitCode::from(1));
        }
        for (part, timer) in PARTS {
            let (original, library) = timer(&mut bench);
            println!(
                "| {} | {}×{} | {part} | {:.3} | {:.3} | {:.2} |",
                texture.describe(),
                case.width,
                case.height,
                original * 1e3,
                library * 1e3,
                original / library,
            );
        }
    }
    Ok(ExitCode::SUCCESS)
}

/// Runs the library once and, where that is the last call, paints once.
fn call_once(case: &Case, last: Once) {
    let mut bench = Bench::new(case, 1);
    let sheet = bench.run();
    if last == Once::Paint {
        let number = call::paint(sheet, &mut bench.buffers, &mut bench.picture);
        assert_eq!(number, 0, "painting is refused");
    }
}

/// The image and the settings of one line.
fn draw(plan: &Plan, texture: Texture) -> Result<Case, String> {
    let usual = match texture {
        Texture::KeyNoise => KEY_NOISE_SIZE,
        _ => SIZE,
    };
    let (width, height) = (
        plan.width.unwrap_or(usual.0),
        plan.height.unwrap_or(usual.1),
    );
    // Sizes are refused before they are drawn.
    let pixels = u64::from(width) * u64::from(height);
    if !(1..=judge::case::MAX_PIXELS).contains(&pixels) {
        return Err(format!("{width}×{height} is not 1 to 65000 pixels"));
    }
    let image = texture.draw(&mut Rng::for_case(SEED, 0), width, height);
    Ok(Case::of_pixels(settings(texture), width, height, &image))
}

fn settings(texture: Texture) -> Settings {
    match texture {
        Texture::KeyPatches | Texture::KeyIslands | Texture::KeyMarks | Texture::KeyNoise => {
            Settings {
                hierarchical: HIERARCHICAL_MAX - 1,
                key: KEY,
                keying_action: KeyingAction::Keep,
                ..Settings::default()
            }
        }
        _ => Settings::default(),
    }
}

/// `Runner::run` and `color_clusters_run`. The copy of the original's image is not timed.
fn time_run(bench: &mut Bench) -> Medians {
    let call = Call::of(bench.case);
    let original = || {
        let runner = original::runner(bench.case);
        time(|| runner.run())
    };
    let library = || time(|| call::run(&call, &mut bench.buffers));
    medians(bench.repeats, original, library)
}

/// `to_color_image` and `color_clusters_paint`, of what one run left.
fn time_paint(bench: &mut Bench) -> Medians {
    let case = bench.case;
    let clusters = original::runner(case).run();
    let sheet = bench.run();
    let original = || time(|| clusters.view().to_color_image());
    let library = || time(|| call::paint(sheet, &mut bench.buffers, &mut bench.picture));
    medians(bench.repeats, original, library)
}

/// Both of the original's, one after the other, and `color_clusters_run_and_paint`.
fn time_run_and_paint(bench: &mut Bench) -> Medians {
    let call = Call::of(bench.case);
    let original = || {
        let runner = original::runner(bench.case);
        time(|| {
            let clusters = runner.run();
            let image = clusters.view().to_color_image();
            (clusters, image)
        })
    };
    let library = || time(|| call::run_and_paint(&call, &mut bench.buffers, &mut bench.picture));
    medians(bench.repeats, original, library)
}

/// Does two works by turns, after once that is not counted.
fn medians(
    repeats: usize,
    mut original: impl FnMut() -> Duration,
    mut library: impl FnMut() -> Duration,
) -> Medians {
    original();
    library();
    let (original, library) = (0..repeats).map(|_| (original(), library())).unzip();
    (median(original), median(library))
}

/// How long a work takes; the release of its result is not timed.
fn time<T>(work: impl FnOnce() -> T) -> Duration {
    let start = Instant::now();
    let result = black_box(work());
    let time = start.elapsed();
    drop(result);
    time
}

fn median(mut times: Vec<Duration>) -> f64 {
    times.sort_unstable();
    let middle = times.len() / 2;
    let upper = times[middle].as_secs_f64();
    if times.len() % 2 == 1 {
        upper
    } else {
        (times[middle - 1].as_secs_f64() + upper) / 2.0
    }
}

#[cfg(test)]
mod tests {
    use super::*;

    #[test]
    fn the_median_is_in_the_middle() {
        let seconds = |times: &[u64]| times.iter().map(|&s| Duration::from_secs(s)).collect();
        assert_eq!(median(seconds(&[9, 1, 5])), 5.0);
        assert_eq!(median(seconds(&[9, 1, 5, 7])), 6.0);
    }

    #[test]
    fn wrong_options_are_refused() {
        let plan = |line: &str| {
            let args: Vec<String> = line.split_whitespace().map(String::from).collect();
            parse(&args)
        };
        assert!(plan("--texture flat --repeats 3 --width 9").is_ok());
        assert!(plan("--once paint").is_ok());
        assert!(plan("--once both").is_err());
        assert!(plan("--texture none").is_err());
        assert!(plan("--repeats 0").is_err());
        assert!(plan("--width x").is_err());
        assert!(plan("extra").is_err());
    }
}
