//! `sheet clusters`

use std::cmp::Ordering;

use clap::{Args, ValueEnum};
use serde::Serialize;

use super::ensure_one_standard;
use super::several::{Several, Told};
use crate::cluster::Cluster;
use crate::failure::{Failure, Outcome};
use crate::place::Place;
use crate::run::run;
use crate::settings::Settings;
use crate::text::{counted, table};

/// Lists the clusters that are painted on the sheet
#[derive(Args, Debug)]
#[command(
    after_help = "Columns and rows are those of the smallest rectangle around the cluster, counted from 0. The shade \
        is the average of the pixels left to the cluster: those that no cluster inside it holds. Depth is how \
        many clusters were put inside it, not counting those that a merged cluster brought along; holes are \
        those of them that touched at most hollow_neighbours clusters then.\n\n\
        Exit status: 0 listed, 1 a chart was refused or failed (the others are listed), 2 bad usage."
)]
pub struct Clusters {
    /// The charts: PNG or PAM files, or - for standard input
    #[arg(required = true, value_name = "CHART")]
    charts: Vec<Place>,

    /// What the list is sorted by
    #[arg(long, value_enum, value_name = "BY", default_value_t = By::Output)]
    sort: By,

    /// Sort the other way round
    #[arg(long)]
    reverse: bool,

    #[command(flatten)]
    several: Several,

    #[command(flatten)]
    settings: Settings,
}

/// What a list of clusters is sorted by. Equal ones stay in the order of the outputs.
#[derive(Clone, Copy, Debug, ValueEnum)]
enum By {
    /// The order of the outputs: the last is painted first
    Output,
    /// The cluster's number
    Number,
    /// The number of pixels
    Size,
    /// The first column, then the first row
    Left,
    /// The first row, then the first column
    Top,
    /// The shade: red, then green, blue and alpha
    Shade,
    /// The number of clusters inside
    Depth,
    /// The number of holes
    Holes,
}

impl By {
    fn compare(self, a: &Cluster, b: &Cluster) -> Ordering {
        let [corner_a, corner_b] =
            [a, b].map(|cluster| (cluster.rectangle.left, cluster.rectangle.top));
        match self {
            By::Output => Ordering::Equal,
            By::Number => a.number.cmp(&b.number),
            By::Size => a.size.cmp(&b.size),
            By::Left => corner_a.cmp(&corner_b),
            By::Top => (corner_a.1, corner_a.0).cmp(&(corner_b.1, corner_b.0)),
            By::Shade => a.shade.cmp(&b.shade),
            By::Depth => a.depth.cmp(&b.depth),
            By::Holes => a.holes.cmp(&b.holes),
        }
    }
}

/// The clusters of one chart, under the names that the JSON has.
#[derive(Serialize)]
struct Listed {
    chart: String,
    width: u32,
    height: u32,
    n: u32,
    m: u32,
    clusters: Vec<Cluster>,
}

impl Clusters {
    /// Lists the clusters of all charts.
    pub fn run(&self) -> Result<Outcome, Failure> {
        ensure_one_standard(self.charts.iter())?;
        self.several.each(&self.charts, |chart| self.list(chart))
    }

    fn list(&self, chart: &Place) -> Result<Listed, Failure> {
        let sheet = run(chart, &self.settings)?.sheet;
        let put_out = sheet
            .outputs()
            .iter()
            .map(|number| Cluster::of(&sheet.slot(*number)?, true));
        let mut clusters: Vec<Cluster> = put_out.collect::<Result<_, Failure>>()?;
        clusters.sort_by(|a, b| self.sort.compare(a, b));
        if self.reverse {
            clusters.reverse();
        }
        Ok(Listed {
            chart: chart.chart_name(),
            width: sheet.width,
            height: sheet.height,
            n: sheet.n,
            m: sheet.m,
            clusters,
        })
    }
}

impl Told for Listed {
    fn in_words(&self) -> String {
        let rows: Vec<_> = self.clusters.iter().map(Cluster::cells).collect();
        format!(
            "{}: {} × {}, {} painted\n{}",
            self.chart,
            self.width,
            self.height,
            counted(self.m, "cluster"),
            table(Cluster::HEADINGS, &rows)
        )
    }
}
