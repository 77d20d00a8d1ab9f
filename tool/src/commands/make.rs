//! `sheet make`

use std::collections::HashMap;
use std::fs;
use std::io::{self, IsTerminal};
use std::path::{Path, PathBuf};
use std::time::Instant;

use clap::Args;
use serde::Serialize;

use super::ensure_one_standard;
use super::several::{Item, Several, Told};
use crate::failure::{Failure, Outcome};
use crate::image::Format;
use crate::output::write_picture;
use crate::place::Place;
use crate::run::{self, milliseconds, run};
use crate::settings::Settings;
use crate::text::counted;
use crate::writing::{folder_of, identity, Part};

/// Clusters charts and paints their sheets
#[derive(Args, Debug)]
#[command(
    override_usage = "sheet make [OPTIONS] CHART SHEET\n       sheet make [OPTIONS] --out-dir DIR CHART...",
    after_help = "A chart is PNG of any kind, or PAM. Of a channel with 16 bits the high byte counts; other MAXVALs of \
        a PAM are scaled to 0..255, to the nearest step. The sheet is PNG or PAM by the ending of its name. \
        - is standard input or output; a sheet on standard output is PAM.\n\n\
        The JSON has n (cluster slots), m (outputs) and the milliseconds of each part.\n\n\
        Exit status: 0 all made, 1 a chart was refused or failed (the others are made), 2 bad usage."
)]
pub struct Make {
    /// The chart to read and the sheet to write; with --out-dir all are charts
    #[arg(required = true, value_name = "FILE")]
    files: Vec<Place>,

    /// Make the sheet of each chart in this folder, as a PNG named like the chart
    #[arg(long, value_name = "DIR")]
    out_dir: Option<PathBuf>,

    /// Also write the stored sheet, which `sheet check` reads: labels, lists and outputs as numbers
    #[arg(long, value_name = "FILE", conflicts_with = "out_dir")]
    stored: Option<PathBuf>,

    /// Also write the stored sheet of each chart in this folder, named like the chart with .stored
    #[arg(long, value_name = "DIR", requires = "out_dir")]
    stored_dir: Option<PathBuf>,

    #[command(flatten)]
    several: Several,

    #[command(flatten)]
    settings: Settings,
}

/// One chart, and where what is made of it goes.
struct Job {
    chart: Place,
    sheet: Place,
    stored: Option<PathBuf>,
}

/// What was made of a chart, under the names that the JSON has.
#[derive(Serialize)]
struct Made {
    chart: String,
    sheet: String,
    stored: Option<String>,
    width: u32,
    height: u32,
    n: u32,
    m: u32,
    milliseconds: Timings,
}

#[derive(Serialize)]
struct Timings {
    read: f64,
    run_and_paint: f64,
    write: f64,
}

impl Make {
    /// Makes all sheets.
    pub fn run(&self) -> Result<Outcome, Failure> {
        let jobs = self.jobs()?;
        self.ensure_sensible(&jobs)?;
        // A sheet on standard output stands there alone.
        let mut several = self.several;
        several.quiet |= jobs.iter().any(|job| job.sheet == Place::Standard);
        several.each(&jobs, |job| self.make(job))
    }

    /// What is to be made of what.
    fn jobs(&self) -> Result<Vec<Job>, Failure> {
        match (&self.out_dir, self.files.as_slice()) {
            (Some(folder), charts) => charts
                .iter()
                .map(|chart| self.job_in(folder, chart))
                .collect(),
            (None, [chart, sheet]) => Ok(vec![Job {
                chart: chart.clone(),
                sheet: sheet.clone(),
                stored: self.stored.clone(),
            }]),
            (None, [_]) => Err(usage(
                "give the sheet to write after the chart, or --out-dir DIR",
            )),
            (None, _) => Err(usage(
                "give one chart and one sheet, or several charts and --out-dir DIR",
            )),
        }
    }

    fn job_in(&self, folder: &Path, chart: &Place) -> Result<Job, Failure> {
        let Place::File(path) = chart else {
            return Err(usage(
                "standard input has no name that a sheet in --out-dir could take",
            ));
        };
        let name = path.file_stem();
        let name = name.ok_or_else(|| usage(&format!("{} names no file", path.display())))?;
        let named = |folder: &Path, ending: &str| {
            let mut file = name.to_os_string();
            file.push(ending);
            folder.join(file)
        };
        Ok(Job {
            chart: chart.clone(),
            sheet: Place::File(named(folder, ".png")),
            stored: self
                .stored_dir
                .as_deref()
                .map(|folder| named(folder, ".stored")),
        })
    }

    /// Refuses what can't be meant.
    fn ensure_sensible(&self, jobs: &[Job]) -> Result<(), Failure> {
        ensure_one_standard(jobs.iter().map(|job| &job.chart))?;
        if self.stored.as_deref() == Some(Path::new("-")) {
            return Err(usage(
                "a stored sheet goes to a file; give --stored its name",
            ));
        }
        ensure_files_apart(jobs)?;
        jobs.iter()
            .try_for_each(|job| self.ensure_sheet_can_go(&job.sheet))
    }

    /// A file's name must give its format, and standard output must be free for a sheet.
    fn ensure_sheet_can_go(&self, sheet: &Place) -> Result<(), Failure> {
        match sheet {
            Place::File(path) => Format::of(path).map(|_| ()),
            Place::Standard if self.several.json => {
                Err(usage("--json and a sheet can't both go to standard output"))
            }
            Place::Standard if io::stdout().is_terminal() => Err(usage(
                "a sheet is not written to a terminal; give a file, or send it on to another program",
            )),
            Place::Standard => Ok(()),
        }
    }

    /// Makes one sheet.
    fn make(&self, job: &Job) -> Result<Made, Failure> {
        let run = run(&job.chart, &self.settings)?;
        let start = Instant::now();
        let mut parts = Vec::new();
        if let Some(path) = &job.stored {
            parts.push(self.part(path, &run::store(&run.sheet)?)?);
        }
        let image = run.sheet.image();
        match &job.sheet {
            Place::File(path) => parts.push(self.part(path, &image.encode(Format::of(path)?)?)?),
            Place::Standard => write_picture(&image.encode(Format::Pam)?)?,
        }
        parts.into_iter().try_for_each(Part::put)?;
        Ok(Made {
            chart: job.chart.chart_name(),
            sheet: job.sheet.sheet_name(),
            stored: job.stored.as_deref().map(|path| path.display().to_string()),
            width: run.sheet.width,
            height: run.sheet.height,
            n: run.sheet.n,
            m: run.sheet.m,
            milliseconds: Timings {
                read: run.read,
                run_and_paint: run.run_and_paint,
                write: milliseconds(start),
            },
        })
    }

    /// Writes a file beside its place; the folders of --out-dir and --stored-dir are made where missing.
    fn part(&self, path: &Path, bytes: &[u8]) -> Result<Part, Failure> {
        if self.out_dir.is_some() {
            let folder = folder_of(path);
            fs::create_dir_all(folder).map_err(|error| {
                Failure::File(format!(
                    "the folder {} can't be made: {error}",
                    folder.display()
                ))
            })?;
        }
        Part::write(path, bytes)
    }
}

impl Job {
    /// The files that are written.
    fn targets(&self) -> impl Iterator<Item = &Path> {
        let sheet = match &self.sheet {
            Place::File(path) => Some(path.as_path()),
            Place::Standard => None,
        };
        sheet.into_iter().chain(self.stored.as_deref())
    }
}

impl Item for Job {
    fn chart(&self) -> &Place {
        &self.chart
    }
}

impl Told for Made {
    fn in_words(&self) -> String {
        format!(
            "{}: {} × {}, {} painted\n",
            self.sheet,
            self.width,
            self.height,
            counted(self.m, "cluster")
        )
    }
}

/// Refuses what would spoil a file: two results under one name, or a result over a chart.
fn ensure_files_apart(jobs: &[Job]) -> Result<(), Failure> {
    let mut targets = HashMap::new();
    for job in jobs {
        for target in job.targets() {
            if let Some(other) = targets.insert(identity(target), &job.chart) {
                let charts = [other, &job.chart].map(Place::chart_name).join(" and ");
                let target = target.display();
                return Err(usage(&format!(
                    "{target} would be written twice, for {charts}"
                )));
            }
        }
    }
    let written_over = |job: &&Job| match &job.chart {
        Place::File(path) => targets.contains_key(&identity(path)),
        Place::Standard => false,
    };
    match jobs.iter().find(written_over) {
        None => Ok(()),
        Some(job) => {
            let chart = job.chart.chart_name();
            Err(usage(&format!(
                "{chart} is a chart and would be written over"
            )))
        }
    }
}

fn usage(text: &str) -> Failure {
    Failure::Usage(text.to_string())
}
