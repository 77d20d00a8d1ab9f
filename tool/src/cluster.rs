//! What is said of a cluster.

use serde::Serialize;

use crate::colour::{Rgba, Sum};
use crate::failure::Failure;
use crate::sheet::{Rectangle, Slot};
use crate::text::grouped;

/// A cluster that stands, under the names that the JSON has.
#[derive(Clone, Debug, Serialize)]
pub struct Cluster {
    pub number: u32,
    /// How many pixels it holds, those of the clusters inside it among them.
    pub size: u32,
    pub rectangle: Rectangle,
    /// How many pixels are left to it: no cluster inside it holds them.
    pub own_pixels: u32,
    /// Of all pixels that it holds.
    pub sum: Sum,
    /// Of the pixels that are left to it; its average is the shade.
    pub residue: Sum,
    pub shade: Rgba,
    pub merged_into: u32,
    /// How many clusters were put inside it.
    pub depth: u32,
    /// How many of these are holes.
    pub holes: u32,
    /// Whether it is among the outputs.
    pub put_out: bool,
}

impl Cluster {
    /// The cluster of a slot that stands.
    pub fn of(slot: &Slot, put_out: bool) -> Result<Self, Failure> {
        let agree = slot.stands() && slot.sum.count == slot.pixel_count;
        if !agree || slot.residue.count > slot.pixel_count {
            let text = format!("the counts of cluster {} do not agree", slot.number);
            return Err(Failure::Internal(text));
        }
        Ok(Self {
            number: slot.number,
            size: slot.pixel_count,
            rectangle: slot.rectangle,
            own_pixels: slot.residue.count,
            sum: slot.sum,
            residue: slot.residue,
            shade: slot.shade()?,
            merged_into: slot.merged_into,
            depth: slot.depth,
            holes: slot.num_holes,
            put_out,
        })
    }

    /// The headings of `cells`.
    pub const HEADINGS: [&'static str; 8] = [
        "cluster",
        "pixels",
        "columns",
        "rows",
        "left to it",
        "shade",
        "depth",
        "holes",
    ];

    /// One line of a table.
    pub fn cells(&self) -> [String; 8] {
        let span = |(first, last): (u32, u32)| format!("{first}-{last}");
        [
            self.number.to_string(),
            grouped(self.size),
            span(self.rectangle.columns()),
            span(self.rectangle.rows()),
            grouped(self.own_pixels),
            self.shade.to_string(),
            self.depth.to_string(),
            self.holes.to_string(),
        ]
    }
}

#[cfg(test)]
mod tests {
    use super::*;
    use crate::sheet::tests::black_in_white;

    #[test]
    fn a_cluster_in_a_line() {
        let sheet = black_in_white();
        let cluster = Cluster::of(&sheet.slot(2).unwrap(), true).unwrap();
        assert_eq!(cluster.cells().join(" "), "2 2 0-1 0-0 1 #FFFFFFFF 1 1");
        assert!(Cluster::of(&sheet.slot(0).unwrap(), true).is_err());
        let torn = Slot {
            pixel_count: 1,
            ..sheet.slot(2).unwrap()
        };
        assert!(Cluster::of(&torn, true).is_err());
    }
}
