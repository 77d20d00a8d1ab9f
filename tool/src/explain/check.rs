//! Holds every statement of an explanation against the chart, the picture and the lists, so that a
//! fault becomes an internal error and never a false statement.

use super::{Asked, Explanation};
use crate::colour::{Rgba, Sum};
use crate::failure::Failure;
use crate::nesting::Nesting;
use crate::sheet::{Rectangle, Sheet, Slot};

/// An internal error where what must hold does not.
pub fn ensure(holds: bool, otherwise: &str) -> Result<(), Failure> {
    match holds {
        true => Ok(()),
        false => Err(Failure::Internal(otherwise.to_string())),
    }
}

/// Checks all that is said of a pixel, which the clusters of `slots` hold, from inner to outer.
pub fn check(
    asked: &Asked,
    said: &Explanation,
    nesting: Option<&Nesting>,
    slots: &[Slot],
) -> Result<(), Failure> {
    let rising = |pair: &[Slot]| pair[0].pixel_count < pair[1].pixel_count;
    let nested = slots.windows(2).all(rising);
    ensure(nested, "the clusters that hold the pixel are not nested")?;
    let around = slots
        .iter()
        .all(|slot| slot.rectangle.contains(said.x, said.y));
    ensure(around, "the pixel lies outside a rectangle of its cluster")?;
    let held = said.discarded == slots.is_empty();
    ensure(
        held,
        "the pixel is held by no cluster, or should not be held",
    )?;
    let outermost = nesting.map_or(0, |nesting| nesting.outermost);
    ensure(
        said.label == outermost,
        "the label does not name the outermost cluster",
    )?;
    if let Some(smallest) = slots.first() {
        check_smallest(asked.sheet, said, smallest)?;
    }
    check_shade(asked, said, nesting, slots)
}

/// The rectangle of the smallest cluster is that of its pixels, and what lies inside it leaves the
/// stated number of pixels to it.
fn check_smallest(sheet: &Sheet, said: &Explanation, smallest: &Slot) -> Result<(), Failure> {
    let rectangle = around(&sheet.list(smallest)?, sheet.width as usize);
    ensure(
        rectangle == Some(smallest.rectangle),
        "a rectangle is not that of its pixels",
    )?;
    let inside: u32 = said.inside.iter().map(|inner| inner.cluster.size).sum();
    let left = smallest.pixel_count.checked_sub(inside);
    ensure(
        left == Some(smallest.residue.count),
        "the pixels left to a cluster are miscounted",
    )
}

/// The shade that is shown is the average of just the pixels left to the cluster that is named.
fn check_shade(
    asked: &Asked,
    said: &Explanation,
    nesting: Option<&Nesting>,
    slots: &[Slot],
) -> Result<(), Failure> {
    let painter = slots
        .iter()
        .find(|slot| Some(slot.number) == said.painted_by);
    let (Some(painter), Some(nesting)) = (painter, nesting) else {
        let empty = said.shown == Rgba::default();
        ensure(empty, "the sheet shows a shade that no output gives")?;
        return ensure(
            asked.settings.keying(),
            "no output holds the pixel, though no key is set",
        );
    };
    ensure(
        painter.shade()? == said.shown,
        "the sheet shows another shade",
    )?;
    let innermost = said.painted_by == said.smallest || asked.settings.keying();
    ensure(innermost, "the shade is not that of the smallest cluster")?;
    let mut sum = Sum::default();
    for pixel in nesting.own_pixels(painter) {
        sum.add(Rgba::at(&asked.chart.bytes, pixel).unwrap_or_default());
    }
    ensure(
        sum == painter.residue,
        "the sum is not that of the pixels left to the cluster",
    )
}

/// The smallest rectangle around pixels of a sheet that is `width` wide; none around none.
fn around(pixels: &[usize], width: usize) -> Option<Rectangle> {
    let columns = || pixels.iter().map(|pixel| (pixel % width) as u32);
    let rows = || pixels.iter().map(|pixel| (pixel / width) as u32);
    Some(Rectangle {
        left: columns().min()?,
        top: rows().min()?,
        right: columns().max()? + 1,
        bottom: rows().max()? + 1,
    })
}

#[cfg(test)]
mod tests {
    use super::*;
    use crate::image::Image;
    use crate::settings::tests::parse;
    use crate::sheet::tests::black_in_white;
    use crate::sheet::SLOT;

    /// Explains a pixel of the worked sheet after a change of it.
    fn explained(x: u32, change: impl Fn(&mut Sheet)) -> Result<Explanation, String> {
        let mut sheet = black_in_white();
        let chart = Image {
            width: 2,
            height: 1,
            bytes: sheet.picture.clone(),
        };
        change(&mut sheet);
        let settings = parse("").unwrap();
        let asked = Asked {
            chart: &chart,
            sheet: &sheet,
            settings: &settings,
        };
        asked.explain(x, 0).map_err(|failure| failure.to_string())
    }

    #[test]
    fn a_true_explanation_passes() {
        let inner = explained(0, |_| ()).unwrap();
        assert_eq!(
            (inner.label, inner.smallest, inner.painted_by),
            (2, Some(1), Some(1))
        );
        assert_eq!(inner.holders.len(), 2);
        let outer = explained(1, |_| ()).unwrap();
        assert_eq!((outer.smallest, outer.inside.len()), (Some(2), 1));
        assert!(outer.inside[0].hole);
    }

    #[test]
    fn no_false_statement_passes() {
        let caught = |x: u32, word: &str, change: &dyn Fn(&mut Sheet)| {
            let error = explained(x, change).expect_err(word);
            assert!(
                error.contains("internal error") && error.contains(word),
                "{error}"
            );
        };
        let slot = |number: usize, place: usize, value: u32| {
            move |sheet: &mut Sheet| sheet.table[number * SLOT + place] = value
        };
        caught(0, "another shade", &|sheet| sheet.picture[0] = 1);
        caught(0, "another shade", &|sheet| sheet.outputs.swap(0, 1));
        caught(0, "not that of the smallest", &|sheet| {
            sheet.outputs.swap(0, 1);
            sheet.picture.fill(255);
        });
        caught(1, "no output gives", &|sheet| sheet.m = 0);
        caught(1, "no key is set", &|sheet| {
            sheet.m = 0;
            sheet.picture.fill(0);
        });
        caught(0, "does not name the outermost", &|sheet| {
            sheet.labels[0] = 0
        });
        caught(0, "held by no cluster", &slot(2, 1, 1));
        caught(1, "rectangle", &slot(2, 4, 1));
        caught(1, "not that of its pixels", &slot(2, 5, 2));
        caught(1, "miscounted", &slot(2, 15, 2));
        caught(1, "counts of cluster 2", &slot(2, 10, 3));
        caught(0, "not that of the pixels left", &|sheet| {
            sheet.table[SLOT + 11] = 7;
            sheet.picture[0] = 7;
        });
        caught(1, "holes of cluster 2", &slot(2, 18, 0));
        caught(1, "a hole does not lie inside", &slot(2, 19, 3));
    }

    #[test]
    fn a_discarded_pixel_must_have_no_cluster() {
        let settings = parse("--key 000000 --discard").unwrap();
        let sheet = black_in_white();
        let chart = Image {
            width: 2,
            height: 1,
            bytes: sheet.picture.clone(),
        };
        let ask = |sheet: &Sheet| {
            let asked = Asked {
                chart: &chart,
                sheet,
                settings: &settings,
            };
            asked.explain(0, 0).map_err(|failure| failure.to_string())
        };
        assert!(ask(&sheet).unwrap_err().contains("should not be held"));
        let mut discarded = sheet.clone();
        discarded.table[2 * SLOT + 1] = 1;
        assert!(ask(&discarded)
            .unwrap_err()
            .contains("does not name the outermost"));
        discarded.labels[0] = 0;
        assert!(ask(&discarded).unwrap_err().contains("no output gives"));
        discarded.picture[3] = 0;
        assert!(ask(&discarded).unwrap().discarded);
    }
}
