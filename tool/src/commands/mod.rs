//! The commands of the program.

pub mod check;
pub mod clusters;
pub mod explain;
pub mod make;
pub mod several;

use serde::Serialize;

use crate::failure::Failure;
use crate::place::Place;

/// What the JSON says of a chart that failed.
#[derive(Serialize)]
struct Failed {
    /// The stored sheet that it should have been compared with.
    #[serde(skip_serializing_if = "Option::is_none")]
    stored: Option<String>,
    chart: String,
    /// The number of the library's refusal, if it was one.
    refusal: Option<u32>,
    error: String,
}

impl Failed {
    fn of(chart: &Place, stored: Option<&Place>, failure: &Failure) -> Self {
        Self {
            stored: stored.map(Place::chart_name),
            chart: chart.chart_name(),
            refusal: failure.number(),
            error: failure.to_string(),
        }
    }
}

/// Standard input can be read only once.
fn ensure_one_standard<'a>(charts: impl Iterator<Item = &'a Place>) -> Result<(), Failure> {
    match charts.filter(|chart| **chart == Place::Standard).count() {
        0 | 1 => Ok(()),
        _ => Err(Failure::Usage(
            "standard input (-) can be read only once".to_string(),
        )),
    }
}
