//! Which clusters lie inside which, read from the lists.
//!
//! A cluster inside another has its list as a stretch of the other's list. `merged_into` would not
//! do: it keeps naming a cluster that was later merged away.

use std::collections::HashMap;
use std::ops::Range;

use crate::failure::Failure;
use crate::sheet::{Sheet, Slot};

/// All clusters that stand in one outermost cluster.
pub struct Nesting {
    /// The number of the outermost cluster.
    pub outermost: u32,
    /// Its pixels, in the order of its list.
    list: Vec<usize>,
    /// The clusters, each with the place in the list where its own begins.
    clusters: Vec<(usize, Slot)>,
}

impl Nesting {
    /// The nesting around a pixel; none where no list has the pixel. A cluster is outermost when its
    /// pixels bear its number, and every other that stands lies in such a one.
    pub fn around(sheet: &Sheet, pixel: usize) -> Result<Option<Self>, Failure> {
        for slot in sheet.slots().filter(Slot::stands) {
            let first = (slot.first_pixel as usize).wrapping_sub(1);
            if sheet.labels.get(first) == Some(&slot.number) {
                let list = sheet.list(&slot)?;
                if list.contains(&pixel) {
                    return Self::of(sheet, slot.number, list).map(Some);
                }
            }
        }
        Ok(None)
    }

    fn of(sheet: &Sheet, outermost: u32, list: Vec<usize>) -> Result<Self, Failure> {
        let places: HashMap<usize, usize> =
            (0..).zip(&list).map(|(at, pixel)| (*pixel, at)).collect();
        let mut clusters = Vec::new();
        for slot in sheet.slots().filter(Slot::stands) {
            let first = (slot.first_pixel as usize).wrapping_sub(1);
            if let Some(&start) = places.get(&first) {
                clusters.push((start, slot));
            }
        }
        let fits = |(start, slot): &(usize, Slot)| start + slot.pixel_count as usize <= list.len();
        if places.len() != list.len() || !clusters.iter().all(fits) {
            let text = format!("the lists in cluster {outermost} do not nest");
            return Err(Failure::Internal(text));
        }
        Ok(Self {
            outermost,
            list,
            clusters,
        })
    }

    /// The clusters that hold a pixel, from inner to outer. They are nested, so the smaller is inside.
    pub fn holders(&self, pixel: usize) -> Vec<Slot> {
        let Some(place) = self.list.iter().position(|held| *held == pixel) else {
            return Vec::new();
        };
        let mut holders: Vec<Slot> = self
            .clusters
            .iter()
            .filter(|cluster| stretch(cluster).contains(&place))
            .map(|cluster| cluster.1)
            .collect();
        holders.sort_by_key(|slot| slot.pixel_count);
        holders
    }

    /// The clusters directly inside one: in it, and in no other that is in it.
    pub fn inside(&self, outer: &Slot) -> Vec<Slot> {
        let parts = self.parts_inside(self.stretch_of(outer));
        parts.into_iter().map(|(_, slot)| *slot).collect()
    }

    /// The pixels that are left to a cluster: those that it holds and no cluster inside it does.
    pub fn own_pixels(&self, slot: &Slot) -> Vec<usize> {
        let within = self.stretch_of(slot);
        let mut own = Vec::new();
        let mut from = within.start;
        for part in self.parts_inside(within.clone()).into_iter().map(stretch) {
            own.extend(&self.list[from..part.start]);
            from = part.end;
        }
        own.extend(&self.list[from..within.end]);
        own
    }

    /// The clusters directly inside a stretch, in the order of the list.
    fn parts_inside(&self, within: Range<usize>) -> Vec<&(usize, Slot)> {
        let inside = |cluster: &&(usize, Slot)| {
            let part = stretch(cluster);
            part.len() < within.len() && within.start <= part.start && part.end <= within.end
        };
        let mut parts: Vec<&(usize, Slot)> = self.clusters.iter().filter(inside).collect();
        // Of those that begin at one place the largest comes first, and what begins before its end
        // lies in it.
        parts.sort_by_key(|(start, slot)| (*start, u32::MAX - slot.pixel_count));
        let mut end = 0;
        parts.retain(|cluster| {
            let part = stretch(cluster);
            let direct = part.start >= end;
            end = end.max(part.end);
            direct
        });
        parts
    }

    /// The places of a cluster; empty for one that is not here.
    fn stretch_of(&self, slot: &Slot) -> Range<usize> {
        let here = |cluster: &&(usize, Slot)| cluster.1.number == slot.number;
        self.clusters.iter().find(here).map_or(0..0, stretch)
    }
}

/// The places of a cluster in the list.
fn stretch((start, slot): &(usize, Slot)) -> Range<usize> {
    *start..start + slot.pixel_count as usize
}

#[cfg(test)]
mod tests {
    use super::*;
    use crate::sheet::tests::black_in_white;

    fn numbers(slots: &[Slot]) -> Vec<u32> {
        slots.iter().map(|slot| slot.number).collect()
    }

    #[test]
    fn a_patch_inside_a_patch() {
        let sheet = black_in_white();
        let nesting = Nesting::around(&sheet, 0).unwrap().unwrap();
        assert_eq!(nesting.outermost, 2);
        assert_eq!(numbers(&nesting.holders(0)), [1, 2]);
        assert_eq!(numbers(&nesting.holders(1)), [2]);
        let [inner, outer] = [1, 2].map(|number| sheet.slot(number).unwrap());
        assert_eq!(numbers(&nesting.inside(&outer)), [1]);
        assert!(nesting.inside(&inner).is_empty());
        assert_eq!(nesting.own_pixels(&outer), [1]);
        assert_eq!(nesting.own_pixels(&inner), [0]);
    }

    /// One row of eight pixels in one list: cluster 1 holds all, 2 holds 2 to 5, 3 holds 2 and 3, 4 holds 6.
    fn row_of_eight() -> Sheet {
        let slot = |first: u32, count: u32| {
            let mut numbers = [0; 21];
            (numbers[0], numbers[1]) = (first + 1, count);
            numbers
        };
        let slots = [slot(0, 0), slot(0, 8), slot(2, 4), slot(2, 2), slot(6, 1)];
        Sheet {
            width: 8,
            height: 1,
            n: 5,
            labels: vec![1; 8],
            links: vec![2, 3, 4, 5, 6, 7, 8, 0],
            table: slots.concat(),
            ..Sheet::default()
        }
    }

    #[test]
    fn only_what_is_directly_inside_is_named() {
        let sheet = row_of_eight();
        let nesting = Nesting::around(&sheet, 7).unwrap().unwrap();
        assert_eq!(numbers(&nesting.holders(3)), [3, 2, 1]);
        assert_eq!(numbers(&nesting.holders(5)), [2, 1]);
        assert_eq!(numbers(&nesting.holders(6)), [4, 1]);
        assert_eq!(numbers(&nesting.holders(7)), [1]);
        let [outer, middle] = [1, 2].map(|number| sheet.slot(number).unwrap());
        assert_eq!(numbers(&nesting.inside(&outer)), [2, 4]);
        assert_eq!(nesting.own_pixels(&outer), [0, 1, 7]);
        assert_eq!(nesting.own_pixels(&middle), [4, 5]);
    }

    #[test]
    fn lists_that_do_not_nest_are_noticed() {
        let mut sheet = row_of_eight();
        sheet.table[4 * 21 + 1] = 3;
        assert!(Nesting::around(&sheet, 0).is_err());
    }

    #[test]
    fn a_pixel_of_no_list_has_no_nesting() {
        let mut sheet = row_of_eight();
        sheet.table[21 + 1] = 7;
        assert!(Nesting::around(&sheet, 6).unwrap().is_some());
        assert!(Nesting::around(&sheet, 7).unwrap().is_none());
        assert!(Nesting::around(&sheet, 8).unwrap().is_none());
    }
}
