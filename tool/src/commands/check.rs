//! `sheet check`

use clap::Args;
use serde::Serialize;

use super::ensure_one_standard;
use super::several::{Item, Several, Told};
use crate::failure::{Failure, Outcome};
use crate::image::is_picture;
use crate::place::{up_to, Place};
use crate::run::{run, store};
use crate::settings::Settings;
use crate::stored::{Difference, Stored};
use crate::text::grouped;

/// No stored sheet has as many bytes as this.
const MAX_BYTES: u64 = 1 << 20;

/// Compares stored sheets with what their charts give today
#[derive(Args, Debug)]
#[command(
    override_usage = "sheet check [OPTIONS] STORED CHART [STORED CHART]...",
    after_help = "A stored sheet is what `sheet make --stored` writes. It does not hold the settings: give the same ones.\n\n\
        Exit status: 0 all are equal, 1 one differs, is broken or was refused, 2 bad usage."
)]
pub struct Check {
    /// A stored sheet and its chart (PNG or PAM); further pairs may follow
    #[arg(required = true, value_name = "FILE")]
    files: Vec<Place>,

    #[command(flatten)]
    several: Several,

    #[command(flatten)]
    settings: Settings,
}

/// A stored sheet and its chart.
struct Pair<'a> {
    stored: &'a Place,
    chart: &'a Place,
}

/// What came of a comparison, under the names that the JSON has.
#[derive(Serialize)]
struct Compared {
    stored: String,
    chart: String,
    same: bool,
    #[serde(skip)]
    width: usize,
    differences: Vec<Difference>,
}

impl Check {
    /// Compares all pairs.
    pub fn run(&self) -> Result<Outcome, Failure> {
        if self.files.len() % 2 != 0 {
            let text = "give a stored sheet and its chart, one after the other";
            return Err(Failure::Usage(text.to_string()));
        }
        ensure_one_standard(self.files.iter())?;
        let pairs = self.files.chunks_exact(2);
        let pairs: Vec<Pair> = pairs
            .map(|pair| Pair {
                stored: &pair[0],
                chart: &pair[1],
            })
            .collect();
        self.several.each(&pairs, |pair| self.compare(pair))
    }

    fn compare(&self, pair: &Pair) -> Result<Compared, Failure> {
        let stored = read(pair.stored)?;
        let run = run(pair.chart, &self.settings).map_err(|failure| pair.of_chart(failure))?;
        let fresh = Stored::read(&store(&run.sheet)?);
        let fresh = fresh.map_err(|failure| Failure::Internal(failure.to_string()))?;
        let differences = stored.differences(&fresh);
        Ok(Compared {
            stored: pair.stored.chart_name(),
            chart: pair.chart.chart_name(),
            same: differences.is_empty(),
            width: fresh.width.into(),
            differences,
        })
    }
}

impl Pair<'_> {
    /// A failure is told under the name of the stored sheet, so one of the chart says so.
    fn of_chart(&self, failure: Failure) -> Failure {
        match failure {
            Failure::File(text) => {
                Failure::File(format!("its chart {}: {text}", self.chart.chart_name()))
            }
            other => other,
        }
    }
}

impl Item for Pair<'_> {
    fn chart(&self) -> &Place {
        self.chart
    }

    fn stored(&self) -> Option<&Place> {
        Some(self.stored)
    }
}

fn read(place: &Place) -> Result<Stored, Failure> {
    let bytes = up_to(&mut place.open()?, MAX_BYTES)?;
    let wrong = |text: &str| Err(Failure::File(text.to_string()));
    if is_picture(&bytes) {
        return wrong("it is a picture. Give the stored sheet first, and then its chart.");
    }
    if bytes.len() as u64 == MAX_BYTES {
        return wrong("it is no stored sheet: it has 1 MiB or more, and no sheet needs as much");
    }
    Stored::read(&bytes)
}

impl Told for Compared {
    fn is_well(&self) -> bool {
        self.same
    }

    fn in_words(&self) -> String {
        let Self { stored, chart, .. } = self;
        if self.same {
            return format!("{stored}: equal to a fresh run of {chart}\n");
        }
        let lines: String = self
            .differences
            .iter()
            .map(|difference| self.line(difference))
            .collect();
        format!(
            "{stored}: differs from a fresh run of {chart}\n{lines}  \
             Either the chart or the settings are not those that it was made with, or it was changed since.\n"
        )
    }
}

impl Compared {
    fn line(&self, difference: &Difference) -> String {
        let Difference { count, first, .. } = difference;
        let number = |number: Option<u16>| number.map_or("nothing".to_string(), grouped);
        let both = format!(
            "stored {}, fresh {}",
            number(difference.stored),
            number(difference.fresh)
        );
        let differ = match count {
            1 => "1 differs".to_string(),
            many => format!("{} differ", grouped(*many as u64)),
        };
        let at =
            |things, place: String| format!("  {things}: {differ}, the first at {place}: {both}\n");
        let pixel = format!("column {}, row {}", first % self.width, first / self.width);
        match difference.what {
            "labels" => at("labels of pixels", pixel),
            "links" => at("links of pixels", pixel),
            "first_pixels" => at("first pixels of clusters", format!("cluster {first}")),
            "pixel_counts" => at("pixel counts of clusters", format!("cluster {first}")),
            "outputs" => at("outputs", format!("place {first}")),
            "n" => format!("  n, the number of cluster slots: {both}\n"),
            "m" => format!("  m, the number of outputs: {both}\n"),
            side => format!("  {side}: {both}\n"),
        }
    }
}
