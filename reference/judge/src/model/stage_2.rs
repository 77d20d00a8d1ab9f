//! The output order.

use std::cmp::Reverse;
use std::collections::HashSet;

use super::{Model, Reading};
use crate::case::{CHANNELS, HIERARCHICAL_MAX};

/// The steps from a pixel to its four neighbours.
const SIDES: [(i32, i32); 4] = [(0, -1), (0, 1), (-1, 0), (1, 0)];

/// The steps from a pixel to its eight neighbours.
const SIDES_AND_CORNERS: [(i32, i32); 8] = [
    (0, -1),
    (0, 1),
    (-1, 0),
    (1, 0),
    (-1, -1),
    (1, -1),
    (-1, 1),
    (1, 1),
];

impl Model<'_> {
    /// Takes the areas in rising order, those that arise meanwhile included.
    pub(super) fn stage_2(&mut self) {
        let slots = self.clusters.len() as u32;
        self.passed_over = vec![false; slots as usize];
        if self.case.settings.hierarchical == 0 {
            self.put_out_all(slots);
            return;
        }
        self.listed = (0..slots).map(|k| self.count(k)).collect();
        let mut area = 0;
        while let Some(larger) = self.larger_than(area) {
            area = larger;
            let at_start: Vec<u32> = (0..slots).map(|k| self.count(k)).collect();
            for k in 0..slots {
                if self.takes(k, area, at_start[k as usize]) {
                    self.visit(k, area);
                }
            }
        }
    }

    fn put_out_all(&mut self, slots: u32) {
        let mut standing: Vec<u32> = (0..slots).filter(|&k| self.count(k) > 0).collect();
        if !self.reads(Reading::OutputsByNumber) {
            standing.sort_by_key(|&k| self.count(k));
        }
        self.outputs = standing;
    }

    /// The next listed area above `area`.
    fn larger_than(&self, area: u32) -> Option<u32> {
        self.listed.range(area + 1..).next().copied()
    }

    /// Whether the pass of `area` visits slot `k` when its turn comes.
    fn takes(&self, k: u32, area: u32, at_start: u32) -> bool {
        let now = self.count(k);
        match self.reading {
            Reading::AreaAtPassStart => at_start == area && now > 0,
            Reading::PassedOverAgain => now == area || self.passed_over[k as usize],
            _ => now == area,
        }
    }

    fn visit(&mut self, k: u32, pass: u32) {
        self.passed_over[k as usize] = false;
        if self.above_hierarchical(self.count(k)) {
            self.outputs.push(k);
            return;
        }
        let neighbours = self.neighbours(k);
        let Some(target) = self.nearest(k, &neighbours) else {
            self.visit_isolated(k, pass);
            return;
        };
        let hollow = self.is_hollow(k, neighbours.len());
        if self.deepens(k, target) {
            if !self.reads(Reading::DeepenedNotPutOut) {
                self.outputs.push(k);
            }
            self.deepen(k, target, hollow);
        } else {
            self.merge_plainly(k, target, hollow);
        }
        self.passed_over[target as usize] = false;
        if !self.reads(Reading::StartAreasOnly) {
            self.listed.insert(self.count(target));
        }
    }

    fn above_hierarchical(&self, area: u32) -> bool {
        let hierarchical = self.case.settings.hierarchical;
        match self.reading {
            Reading::HierarchicalInclusive => area >= hierarchical,
            _ => area > hierarchical,
        }
    }

    /// A cluster without neighbours is put out as the background, or as one that discarded pixels
    /// surround; else it is passed over.
    fn visit_isolated(&mut self, k: u32, pass: u32) {
        let among_discarded = match self.reading {
            Reading::IsolatedWaitsUnderDiscard => false,
            Reading::IsolatedPutOutUnderKeep => true,
            _ => self.keying_on() && self.discards(),
        };
        if among_discarded || self.larger_than(pass).is_none() {
            self.outputs.push(k);
        } else {
            self.passed_over[k as usize] = true;
        }
    }

    /// The labels beside the pixels of cluster `k`, each once, in the order in which they are found.
    fn neighbours(&self, k: u32) -> Vec<u32> {
        let sides = match self.reading {
            Reading::DiagonalNeighbours => &SIDES_AND_CORNERS[..],
            _ => &SIDES[..],
        };
        let list = &self.cluster(k).list;
        let own = self.label(list[0]);
        let mut seen = HashSet::new();
        list.iter()
            .flat_map(|&p| sides.iter().map(move |&(dx, dy)| (p, dx, dy)))
            .filter_map(|(p, dx, dy)| self.neighbour_at(p, dx, dy))
            .map(|q| self.label(q))
            .filter(|&label| label != own && self.counts_as_neighbour(label))
            .filter(|&label| seen.insert(label))
            .collect()
    }

    fn neighbour_at(&self, p: u32, dx: i32, dy: i32) -> Option<u32> {
        let across = || {
            let q = p.checked_add_signed(dx + dy * self.case.width as i32)?;
            (q < self.case.area()).then_some(q)
        };
        match self.reading {
            Reading::NeighboursWrapAround => across(),
            _ => self.beside(p, dx, dy),
        }
    }

    fn counts_as_neighbour(&self, label: u32) -> bool {
        label != 0 || self.reads(Reading::ZeroIsNeighbour) && self.count(0) > 0
    }

    /// The neighbour with the smallest difference, then with the smallest number.
    fn nearest(&self, k: u32, neighbours: &[u32]) -> Option<u32> {
        let ranked = neighbours
            .iter()
            .map(|&other| (self.difference(k, other), other));
        match self.reading {
            Reading::TieToFirstFound => ranked.min_by_key(|&(difference, _)| difference),
            Reading::TieToLargerNumber => {
                ranked.min_by_key(|&(difference, other)| (difference, Reverse(other)))
            }
            _ => ranked.min(),
        }
        .map(|(_, other)| other)
    }

    /// The difference of two clusters' average colours.
    fn difference(&self, k: u32, other: u32) -> u32 {
        let (a, b) = (self.ranked_color(k), self.ranked_color(other));
        let mut channels = (0..CHANNELS).map(|c| a[c].abs_diff(b[c]));
        match self.reading {
            Reading::AlphaInDifference => channels.sum(),
            Reading::LargestDifference => channels.take(CHANNELS - 1).max().unwrap_or(0),
            _ => channels.by_ref().take(CHANNELS - 1).sum(),
        }
    }

    fn ranked_color(&self, k: u32) -> [u32; CHANNELS] {
        let cluster = self.cluster(k);
        match self.reading {
            Reading::RankByResidue => average(cluster.residue),
            Reading::RoundedDifference => rounded_average(cluster.sum),
            _ => average(cluster.sum),
        }
    }

    fn is_hollow(&self, k: u32, neighbours: usize) -> bool {
        let limit = self.case.settings.hollow_neighbours as usize;
        match self.reading {
            Reading::HollowStrict => neighbours < limit,
            Reading::HollowSigned => neighbours <= limit && limit < 1 << 31,
            Reading::HollowOffTheBorder => neighbours <= limit && !self.touches_border(k),
            _ => neighbours <= limit,
        }
    }

    fn touches_border(&self, k: u32) -> bool {
        let off_image = |p: u32| {
            SIDES
                .iter()
                .any(|&(dx, dy)| self.beside(p, dx, dy).is_none())
        };
        self.cluster(k).list.iter().any(|&p| off_image(p))
    }

    fn deepens(&self, k: u32, target: u32) -> bool {
        let settings = &self.case.settings;
        let top = settings.hierarchical == HIERARCHICAL_MAX;
        (top || self.reads(Reading::DeepensBelowTop))
            && self.good_area(self.count(k))
            && self.good_boundary(k)
            && self.differs_enough(self.difference(k, target))
    }

    fn good_area(&self, area: u32) -> bool {
        let (min, max) = (
            self.case.settings.good_min_area,
            self.case.settings.good_max_area,
        );
        match self.reading {
            Reading::MinInclusive => min <= area && area < max,
            Reading::MaxInclusive => min < area && area <= max,
            Reading::AreasSigned => (min as i32) < area as i32 && (area as i32) < max as i32,
            _ => min < area && area < max,
        }
    }

    fn good_boundary(&self, k: u32) -> bool {
        let asked =
            self.case.settings.good_min_area != 0 || self.reads(Reading::BoundaryAskedAtMinZero);
        match self.reading {
            Reading::BoundaryInclusive => !asked || self.boundary(k) <= self.count(k),
            _ => !asked || self.boundary(k) < self.count(k),
        }
    }

    /// Counts the pixels of `k` outside its holes that have a side which is not such a pixel.
    fn boundary(&self, k: u32) -> u32 {
        let cluster = self.cluster(k);
        let mut own: HashSet<u32> = cluster.list.iter().copied().collect();
        for &child in &cluster.hole_children {
            for p in &self.cluster(child).list {
                own.remove(p);
            }
        }
        let off_image_counts = !self.reads(Reading::BoundaryInsideOnly);
        let open_side = |p: u32, (dx, dy): (i32, i32)| match self.beside(p, dx, dy) {
            Some(q) => !own.contains(&q),
            None => off_image_counts,
        };
        let on_boundary = |p: &&u32| SIDES.iter().any(|&side| open_side(**p, side));
        own.iter().filter(on_boundary).count() as u32
    }

    fn differs_enough(&self, difference: u32) -> bool {
        let difference = i64::from(difference);
        let limit = i64::from(self.case.settings.deepen_diff);
        match self.reading {
            Reading::DiffInclusive => difference >= limit,
            Reading::DiffUnsigned => difference > limit.rem_euclid(1 << 32),
            _ => difference > limit,
        }
    }
}

/// The average of a sum, each channel's floor; all 0 for a sum that counts nothing.
pub(super) fn average([r, g, b, a, count]: [u32; 5]) -> [u32; CHANNELS] {
    [r, g, b, a].map(|channel| channel.checked_div(count).unwrap_or(0))
}

/// The average of a sum, each channel rounded to the nearest.
pub(super) fn rounded_average([r, g, b, a, count]: [u32; 5]) -> [u32; CHANNELS] {
    let half = count / 2;
    average([r + half, g + half, b + half, a + half, count])
}
