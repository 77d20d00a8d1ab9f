//! The library's refusals as sentences that say what to do.

use crate::failure::Failure;
use crate::text::{counted, grouped};

/// The largest chart that the library takes, in pixels. The library decides; this is for the sentence.
const LIMIT: u64 = 65_000;

/// What a sentence may speak of.
#[derive(Clone, Copy, Debug, Default)]
pub struct About {
    pub is_same_color_a: i32,
    pub width: u32,
    pub height: u32,
    /// The row that was asked for.
    pub row: u32,
    /// The number of output entries.
    pub m: u32,
}

/// The failure for a refusal of the library.
pub fn refused(number: u32, about: About) -> Failure {
    Failure::Refused {
        number,
        sentence: sentence(number, about),
    }
}

fn sentence(number: u32, about: About) -> String {
    let About { width, height, .. } = about;
    match number {
        1 => format!(
            "is_same_color_a is {}, but it must be from 0 to 7. Give --is_same_color_a such a number; 4 is usual.",
            about.is_same_color_a
        ),
        2 => format!(
            "the chart is {width} × {height}, so it has no pixels. Give a chart of at least 1 × 1."
        ),
        3 => too_large(width, height),
        7 => fault("a sum of colours became too large"),
        4 => fault("the chart's bytes are not four for each pixel"),
        5 => fault("a buffer that was lent is too short"),
        6 => fault("the picture that was lent has the wrong length"),
        8 => fault("an output names a cluster that is not there"),
        9 => fault("an output's shade has no average"),
        10 => fault("the pixel list of an output is broken"),
        11 => format!(
            "the chart has no row {}: it has {}, counted from 0 to {}. Give such a Y.",
            grouped(about.row),
            counted(height, "row"),
            grouped(height.saturating_sub(1))
        ),
        12 => format!(
            "the stored sheet has room for numbers up to 65,535, and this sheet needs a larger one (it has {}). \
             Use a smaller chart, or make the sheet without its stored form.",
            counted(about.m, "output")
        ),
        13 => fault("the stored sheet was lent the wrong length"),
        _ => fault("the library gave a number that this program does not know"),
    }
}

fn too_large(width: u32, height: u32) -> String {
    let pixels = u64::from(width) * u64::from(height);
    let (fit_width, fit_height) = fitting(width, height);
    format!(
        "the chart is {} × {}, which is {} pixels, and the limit is {}. \
         Scale it down, to {} × {} for example, or cut it into smaller charts.",
        grouped(width),
        grouped(height),
        grouped(pixels),
        grouped(LIMIT),
        grouped(fit_width),
        grouped(fit_height)
    )
}

/// A size of about the same shape that the library takes.
fn fitting(width: u32, height: u32) -> (u64, u64) {
    let (width, height) = (u64::from(width.max(1)), u64::from(height.max(1)));
    let scale = (LIMIT as f64 / (width as f64 * height as f64))
        .sqrt()
        .min(1.0);
    let fit_height = ((height as f64 * scale) as u64).clamp(1, LIMIT);
    let fit_width = ((width as f64 * scale) as u64).clamp(1, LIMIT / fit_height);
    (fit_width, fit_height)
}

/// What no user can cause.
fn fault(what: &str) -> String {
    format!("{what}. This is a fault of this program: please report it with the chart.")
}

#[cfg(test)]
mod tests {
    use super::*;

    const ABOUT: About = About {
        is_same_color_a: 9,
        width: 300,
        height: 400,
        row: 400,
        m: 70_000,
    };

    #[test]
    fn every_refusal_names_its_number_and_what_to_do() {
        for number in 1..=13 {
            let text = refused(number, ABOUT).to_string();
            assert!(text.starts_with(&format!("refusal {number}: ")), "{text}");
            let advice = ["Give ", "Scale ", "Use ", "please report"];
            assert!(advice.iter().any(|word| text.contains(word)), "{text}");
            assert!(!text.contains("does not know"), "{text}");
        }
        assert!(sentence(14, ABOUT).contains("does not know"));
    }

    #[test]
    fn sentences_say_the_numbers_at_hand() {
        assert!(sentence(1, ABOUT).contains("is 9, but it must be from 0 to 7"));
        let zero = About { width: 0, ..ABOUT };
        assert!(sentence(2, zero).contains("0 × 400"));
        let large = sentence(3, ABOUT);
        assert!(
            large.contains("300 × 400, which is 120,000 pixels"),
            "{large}"
        );
        assert!(large.contains("the limit is 65,000"), "{large}");
        assert!(large.contains("to 220 × 294 for example"), "{large}");
        assert!(sentence(11, ABOUT).contains("no row 400: it has 400 rows, counted from 0 to 399"));
        assert!(sentence(12, ABOUT).contains("65,535"));
        assert!(sentence(12, ABOUT).contains("70,000 outputs"));
    }

    #[test]
    fn the_size_that_is_proposed_is_accepted() {
        for (width, height) in [
            (65_001, 1),
            (1, 65_001),
            (u32::MAX, 1),
            (1, u32::MAX),
            (u32::MAX, u32::MAX),
            (255, 255),
            (0, 0),
        ] {
            let (fit_width, fit_height) = fitting(width, height);
            assert!(
                (1..=LIMIT).contains(&(fit_width * fit_height)),
                "{width} {height}"
            );
        }
    }
}
