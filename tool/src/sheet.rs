//! What a run leaves: labels, links, the table of clusters, the outputs and the picture.

use serde::Serialize;

use crate::colour::{Rgba, Sum};
use crate::failure::Failure;
use crate::image::Image;

/// The numbers of one slot of the table.
pub const SLOT: usize = 21;

/// The buffers and the picture of one run, as the library laid them out.
#[derive(Clone, Debug, Default)]
pub struct Sheet {
    pub width: u32,
    pub height: u32,
    /// The number of slots of the table that are in use.
    pub n: u32,
    /// The number of entries of the outputs that are in use.
    pub m: u32,
    pub labels: Vec<u32>,
    pub links: Vec<u32>,
    pub table: Vec<u32>,
    pub outputs: Vec<u32>,
    pub picture: Vec<u8>,
}

/// A rectangle; right and bottom lie one past the last pixel.
#[derive(Clone, Copy, Debug, PartialEq, Eq, Serialize)]
pub struct Rectangle {
    pub left: u32,
    pub top: u32,
    pub right: u32,
    pub bottom: u32,
}

impl Rectangle {
    /// Whether the pixel in this column and row lies in it.
    pub fn contains(&self, x: u32, y: u32) -> bool {
        (self.left..self.right).contains(&x) && (self.top..self.bottom).contains(&y)
    }

    /// First and last column, for reading.
    pub fn columns(&self) -> (u32, u32) {
        (self.left, self.right.saturating_sub(1))
    }

    /// First and last row, for reading.
    pub fn rows(&self) -> (u32, u32) {
        (self.top, self.bottom.saturating_sub(1))
    }
}

/// One slot of the table, with its number. First pixel and hole links hold a number + 1; 0 is none.
#[derive(Clone, Copy, Debug, PartialEq, Eq)]
pub struct Slot {
    pub number: u32,
    pub first_pixel: u32,
    pub pixel_count: u32,
    pub rectangle: Rectangle,
    pub sum: Sum,
    pub residue: Sum,
    pub merged_into: u32,
    pub depth: u32,
    pub num_holes: u32,
    pub first_hole_child: u32,
    pub next_hole_child: u32,
}

impl Slot {
    #[rustfmt::skip]
    fn of(number: u32, numbers: [u32; SLOT]) -> Self {
        let [
            first_pixel, pixel_count, left, top, right, bottom,
            r, g, b, a, count, residue_r, residue_g, residue_b, residue_a, residue_count,
            merged_into, depth, num_holes, first_hole_child, next_hole_child,
        ] = numbers;
        Self {
            number, first_pixel, pixel_count,
            rectangle: Rectangle { left, top, right, bottom },
            sum: Sum { r, g, b, a, count },
            residue: Sum { r: residue_r, g: residue_g, b: residue_b, a: residue_a, count: residue_count },
            merged_into, depth, num_holes, first_hole_child, next_hole_child,
        }
    }

    /// A cluster stands when it holds a pixel.
    pub fn stands(&self) -> bool {
        self.pixel_count > 0
    }

    /// The shade of a cluster that stands: the average of its residue.
    pub fn shade(&self) -> Result<Rgba, Failure> {
        let none = || Failure::Internal(format!("cluster {} has no shade", self.number));
        self.residue.average().ok_or_else(none)
    }
}

impl Sheet {
    /// The slots in use.
    pub fn slots(&self) -> impl Iterator<Item = Slot> + '_ {
        let slots = self.table.chunks_exact(SLOT).zip(0..self.n);
        slots.filter_map(|(numbers, number)| Some(Slot::of(number, numbers.try_into().ok()?)))
    }

    /// The slot with this number.
    pub fn slot(&self, number: u32) -> Result<Slot, Failure> {
        let start = number as usize * SLOT;
        let numbers = self
            .table
            .get(start..start + SLOT)
            .filter(|_| number < self.n);
        numbers
            .and_then(|numbers| Some(Slot::of(number, numbers.try_into().ok()?)))
            .ok_or_else(|| Failure::Internal(format!("there is no cluster {number}")))
    }

    /// The output entries in use, in order: the last is painted first.
    pub fn outputs(&self) -> &[u32] {
        &self.outputs[..self.outputs.len().min(self.m as usize)]
    }

    /// The pixels of a cluster, along the links. Its count says where the list stops.
    pub fn list(&self, slot: &Slot) -> Result<Vec<usize>, Failure> {
        let mut link = slot.first_pixel;
        let mut list = Vec::new();
        for _ in 0..slot.pixel_count {
            let pixel = (link as usize).checked_sub(1);
            let next = pixel.and_then(|pixel| Some((pixel, *self.links.get(pixel)?)));
            let Some((pixel, next)) = next else {
                let text = format!("the pixel list of cluster {} is broken", slot.number);
                return Err(Failure::Internal(text));
            };
            list.push(pixel);
            link = next;
        }
        Ok(list)
    }

    /// The numbers of the clusters that are holes of this one, along the hole links.
    pub fn hole_children(&self, slot: &Slot) -> Result<Vec<u32>, Failure> {
        let mut link = slot.first_hole_child;
        let mut children = Vec::new();
        while let Some(child) = link.checked_sub(1) {
            if children.len() >= slot.num_holes as usize {
                break;
            }
            children.push(child);
            link = self.slot(child)?.next_hole_child;
        }
        if children.len() == slot.num_holes as usize && link == 0 {
            return Ok(children);
        }
        let text = format!(
            "the holes of cluster {} are not {}",
            slot.number, slot.num_holes
        );
        Err(Failure::Internal(text))
    }

    /// The painted sheet.
    pub fn image(&self) -> Image {
        Image {
            width: self.width,
            height: self.height,
            bytes: self.picture.clone(),
        }
    }
}

#[cfg(test)]
pub mod tests {
    use super::*;

    /// A black and a white pixel, H3 of the rules: cluster 1 lies inside cluster 2.
    pub fn black_in_white() -> Sheet {
        let slots = [
            [0; SLOT],
            [
                1, 1, 0, 0, 1, 1, 0, 0, 0, 255, 1, 0, 0, 0, 255, 1, 2, 0, 0, 0, 0,
            ],
            [
                2, 2, 0, 0, 2, 1, 255, 255, 255, 510, 2, 255, 255, 255, 255, 1, 0, 1, 1, 2, 0,
            ],
        ];
        Sheet {
            width: 2,
            height: 1,
            n: 3,
            m: 2,
            labels: vec![2, 2],
            links: vec![0, 1],
            table: slots.concat(),
            outputs: vec![1, 2, 0, 0],
            picture: vec![0, 0, 0, 255, 255, 255, 255, 255],
        }
    }

    #[test]
    fn slots_and_lists_are_read() {
        let sheet = black_in_white();
        let outer = sheet.slot(2).unwrap();
        assert_eq!(sheet.list(&outer).unwrap(), [1, 0]);
        assert_eq!(sheet.hole_children(&outer).unwrap(), [1]);
        assert_eq!(
            (outer.sum.a, outer.residue.a, outer.residue.count),
            (510, 255, 1)
        );
        assert_eq!((outer.merged_into, outer.depth, outer.num_holes), (0, 1, 1));
        let inner = sheet.slot(1).unwrap();
        assert_eq!(sheet.list(&inner).unwrap(), [0]);
        assert_eq!(inner.merged_into, 2);
        assert!(inner.rectangle.contains(0, 0) && !inner.rectangle.contains(1, 0));
        assert_eq!(sheet.slots().filter(Slot::stands).count(), 2);
        assert!(sheet.slot(3).is_err() && sheet.slot(u32::MAX).is_err());
        assert_eq!(sheet.outputs(), [1, 2]);
    }

    #[test]
    fn broken_buffers_are_noticed() {
        let sheet = black_in_white();
        let outer = sheet.slot(2).unwrap();
        let ended = Sheet {
            links: vec![0, 0],
            ..sheet.clone()
        };
        assert!(ended.list(&outer).is_err());
        let astray = Sheet {
            links: vec![0, 3],
            ..sheet.clone()
        };
        assert!(astray.list(&outer).is_err());
        let two = Slot {
            num_holes: 2,
            ..outer
        };
        assert!(sheet.hole_children(&two).is_err());
        let none = Slot {
            num_holes: 0,
            ..outer
        };
        assert!(sheet.hole_children(&none).is_err());
    }
}
