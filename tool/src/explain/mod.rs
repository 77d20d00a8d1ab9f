//! Why a pixel of the sheet is as it is: what the buffers of the run say, checked before it is said.

mod check;
mod words;

use std::collections::HashSet;

use serde::Serialize;

use check::ensure;

use crate::cluster::Cluster;
use crate::colour::Rgba;
use crate::failure::Failure;
use crate::image::Image;
use crate::nesting::Nesting;
use crate::settings::Settings;
use crate::sheet::{Sheet, Slot};

/// All that is said of one pixel, under the names that the JSON has.
#[derive(Clone, Debug, Serialize)]
pub struct Explanation {
    pub x: u32,
    pub y: u32,
    /// In the chart.
    pub colour: Rgba,
    /// On the sheet.
    pub shown: Rgba,
    /// The cluster that the pixel's label names.
    pub label: u32,
    /// Whether the pixel has the key colour and was left out.
    pub discarded: bool,
    /// The smallest cluster that stands and holds the pixel.
    pub smallest: Option<u32>,
    /// The cluster whose shade is shown; none where the sheet is empty.
    pub painted_by: Option<u32>,
    /// The clusters that hold the pixel, from inner to outer.
    pub holders: Vec<Cluster>,
    /// What lies directly inside the smallest.
    pub inside: Vec<Inner>,
}

/// A cluster inside another.
#[derive(Clone, Debug, Serialize)]
pub struct Inner {
    #[serde(flatten)]
    pub cluster: Cluster,
    /// Whether it counts as a hole of the other.
    pub hole: bool,
}

/// The pixels of a cluster, and those of them that are left to it.
pub struct Patch {
    pub pixels: Vec<usize>,
    pub own: Vec<usize>,
}

/// A run that is asked about its pixels.
#[derive(Clone, Copy)]
pub struct Asked<'a> {
    pub chart: &'a Image,
    pub sheet: &'a Sheet,
    pub settings: &'a Settings,
}

impl Asked<'_> {
    /// Explains the pixel in column `x` and row `y`, which lies on the chart.
    pub fn explain(&self, x: u32, y: u32) -> Result<Explanation, Failure> {
        let pixel = self.pixel(x, y);
        let label = *self
            .sheet
            .labels
            .get(pixel)
            .ok_or_else(|| off_the_sheet(x, y))?;
        let colour = Rgba::at(&self.chart.bytes, pixel).ok_or_else(|| off_the_sheet(x, y))?;
        let shown = Rgba::at(&self.sheet.picture, pixel).ok_or_else(|| off_the_sheet(x, y))?;
        let nesting = Nesting::around(self.sheet, pixel)?;
        let slots = nesting
            .as_ref()
            .map_or(Vec::new(), |nesting| nesting.holders(pixel));
        // The last output is painted first, so of those that hold the pixel the first one shows.
        let holds = |number: &&u32| slots.iter().any(|slot| slot.number == **number);
        let explanation = Explanation {
            x,
            y,
            colour,
            shown,
            label,
            discarded: self.settings.discards(colour),
            smallest: slots.first().map(|slot| slot.number),
            painted_by: self.sheet.outputs().iter().find(holds).copied(),
            holders: self.clusters(&slots)?,
            inside: self.inside(nesting.as_ref(), slots.first())?,
        };
        check::check(self, &explanation, nesting.as_ref(), &slots)?;
        Ok(explanation)
    }

    /// The smallest cluster that holds the pixel; none where no cluster does.
    pub fn patch(&self, x: u32, y: u32) -> Result<Option<Patch>, Failure> {
        let pixel = self.pixel(x, y);
        let Some(nesting) = Nesting::around(self.sheet, pixel)? else {
            return Ok(None);
        };
        match nesting.holders(pixel).first() {
            Some(slot) => Ok(Some(Patch {
                pixels: self.sheet.list(slot)?,
                own: nesting.own_pixels(slot),
            })),
            None => Ok(None),
        }
    }

    fn pixel(&self, x: u32, y: u32) -> usize {
        self.sheet.width as usize * y as usize + x as usize
    }

    fn clusters(&self, slots: &[Slot]) -> Result<Vec<Cluster>, Failure> {
        let put_out: HashSet<&u32> = self.sheet.outputs().iter().collect();
        let cluster = |slot: &Slot| Cluster::of(slot, put_out.contains(&slot.number));
        slots.iter().map(cluster).collect()
    }

    fn inside(
        &self,
        nesting: Option<&Nesting>,
        outer: Option<&Slot>,
    ) -> Result<Vec<Inner>, Failure> {
        let (Some(nesting), Some(outer)) = (nesting, outer) else {
            return Ok(Vec::new());
        };
        let holes = self.sheet.hole_children(outer)?;
        let inner = self.clusters(&nesting.inside(outer))?;
        let inner: Vec<Inner> = inner
            .into_iter()
            .map(|cluster| Inner {
                hole: holes.contains(&cluster.number),
                cluster,
            })
            .collect();
        let found = inner.iter().filter(|inner| inner.hole).count();
        ensure(found == holes.len(), "a hole does not lie inside")?;
        Ok(inner)
    }
}

fn off_the_sheet(x: u32, y: u32) -> Failure {
    Failure::Internal(format!("pixel ({x}, {y}) is not on the sheet"))
}
