//! `sheet explain`

use std::path::{Path, PathBuf};

use clap::Args;
use serde::Serialize;

use super::Failed;
use crate::batch::tell;
use crate::explain::{Asked, Explanation};
use crate::failure::{Failure, Outcome};
use crate::image::Format;
use crate::library;
use crate::outline::outlined;
use crate::output::{print, print_json};
use crate::place::Place;
use crate::refusal::{refused, About};
use crate::run::{run, Run};
use crate::settings::Settings;
use crate::sheet::Sheet;
use crate::text::{counted, grouped};
use crate::writing::{identity, Part};

/// Says why a pixel is in its patch and where its shade comes from
#[derive(Args, Debug)]
#[command(
    after_help = "A cluster is a patch of pixels that the clustering put together; one may lie inside another. \
        It is put out when it is painted on the sheet. The pixels left to a cluster are those that no cluster \
        inside it holds; the shade is their average. Give the same settings as for the sheet.\n\n\
        Exit status: 0 explained, 1 the chart was refused or has no such pixel, 2 bad usage."
)]
pub struct Explain {
    /// The chart: a PNG or PAM file, or - for standard input
    chart: Place,

    /// The pixel's column, counted from 0 at the left
    x: u32,

    /// The pixel's row, counted from 0 at the top
    y: u32,

    /// Print one line of JSON
    #[arg(long)]
    json: bool,

    /// Also draw the sheet enlarged, with the smallest cluster that holds the pixel outlined and the rest dimmed
    #[arg(long, value_name = "FILE.png")]
    picture: Option<PathBuf>,

    #[command(flatten)]
    settings: Settings,
}

#[derive(Serialize)]
struct Answer<'a> {
    chart: String,
    width: u32,
    height: u32,
    n: u32,
    m: u32,
    #[serde(flatten)]
    explanation: &'a Explanation,
}

impl Explain {
    /// Explains the pixel.
    pub fn run(&self) -> Result<Outcome, Failure> {
        match self.explain() {
            Ok(()) => Ok(Outcome::Good),
            Err(Failure::Usage(text)) => Err(Failure::Usage(text)),
            Err(failure) => {
                tell(&self.chart.chart_name(), &failure);
                if self.json {
                    print_json(&Failed::of(&self.chart, None, &failure))?;
                }
                Ok(Outcome::Bad)
            }
        }
    }

    fn explain(&self) -> Result<(), Failure> {
        let format = self.picture.as_deref().map(Format::of).transpose()?;
        self.ensure_not_over_the_chart()?;
        let run = run(&self.chart, &self.settings)?;
        self.ensure_on_the_chart(&run.sheet)?;
        let asked = Asked {
            chart: &run.chart,
            sheet: &run.sheet,
            settings: &self.settings,
        };
        let explanation = asked.explain(self.x, self.y)?;
        let picture = match (&self.picture, format) {
            (Some(path), Some(format)) => Some(draw(path, format, asked, &explanation)?),
            _ => None,
        };
        self.print(&run, &explanation)?;
        picture.map_or(Ok(()), Part::put)
    }

    fn ensure_not_over_the_chart(&self) -> Result<(), Failure> {
        match (&self.chart, &self.picture) {
            (Place::File(chart), Some(picture)) if identity(chart) == identity(picture) => {
                let chart = chart.display();
                Err(Failure::Usage(format!(
                    "{chart} is the chart and would be written over"
                )))
            }
            _ => Ok(()),
        }
    }

    /// Rows are the library's to check; columns are not.
    fn ensure_on_the_chart(&self, sheet: &Sheet) -> Result<(), Failure> {
        let Sheet { width, height, .. } = *sheet;
        let about = About {
            width,
            height,
            row: self.y,
            ..About::default()
        };
        library::row_check(sheet, self.y).map_err(|number| refused(number, about))?;
        if self.x < width {
            return Ok(());
        }
        Err(Failure::File(format!(
            "the chart has no column {}: it has {}, counted from 0 to {}. Give such an X.",
            grouped(self.x),
            counted(width, "column"),
            grouped(width - 1)
        )))
    }

    fn print(&self, run: &Run, explanation: &Explanation) -> Result<(), Failure> {
        if !self.json {
            return print(&explanation.to_string());
        }
        print_json(&Answer {
            chart: self.chart.chart_name(),
            width: run.sheet.width,
            height: run.sheet.height,
            n: run.sheet.n,
            m: run.sheet.m,
            explanation,
        })
    }
}

/// The picture, ready to be put in its place.
fn draw(
    path: &Path,
    format: Format,
    asked: Asked,
    explanation: &Explanation,
) -> Result<Part, Failure> {
    let Some(patch) = asked.patch(explanation.x, explanation.y)? else {
        let text = "no cluster holds this pixel (it has the key colour and is discarded), \
            so there is nothing to outline. Leave --picture out, or give another pixel.";
        return Err(Failure::File(text.to_string()));
    };
    Part::write(path, &outlined(asked.sheet, &patch).encode(format)?)
}
