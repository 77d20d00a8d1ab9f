//! A chart read and clustered, with the time that each took.

use std::time::Instant;

use crate::failure::Failure;
use crate::image::{self, Image};
use crate::library;
use crate::place::Place;
use crate::refusal::{refused, About};
use crate::settings::Settings;
use crate::sheet::Sheet;

/// A chart and its sheet.
pub struct Run {
    pub chart: Image,
    pub sheet: Sheet,
    /// Milliseconds.
    pub read: f64,
    /// Milliseconds of the library's one call, which clusters and paints.
    pub run_and_paint: f64,
}

/// Reads a chart and has the library cluster and paint it.
pub fn run(place: &Place, settings: &Settings) -> Result<Run, Failure> {
    let refusal = |number, width, height| {
        let is_same_color_a = settings.is_same_color_a;
        let about = About {
            is_same_color_a,
            width,
            height,
            ..About::default()
        };
        refused(number, about)
    };
    let start = Instant::now();
    let chart = image::read(place, &|width, height| {
        let accepted = library::accepts(settings, width, height);
        accepted.map_err(|number| refusal(number, width, height))
    })?;
    let read = milliseconds(start);
    let start = Instant::now();
    let sheet = library::run_and_paint(settings, &chart);
    let sheet = sheet.map_err(|number| refusal(number, chart.width, chart.height))?;
    Ok(Run {
        chart,
        sheet,
        read,
        run_and_paint: milliseconds(start),
    })
}

/// The stored form of a sheet.
pub fn store(sheet: &Sheet) -> Result<Vec<u8>, Failure> {
    let Sheet {
        width, height, m, ..
    } = *sheet;
    let about = About {
        width,
        height,
        m,
        ..About::default()
    };
    library::store(sheet).map_err(|number| refused(number, about))
}

/// The time since `start`, to a thousandth.
pub fn milliseconds(start: Instant) -> f64 {
    (start.elapsed().as_secs_f64() * 1e6).round() / 1e3
}
