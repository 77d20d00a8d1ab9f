//! Adding a pixel to a cluster, and the merges.

use super::{Model, Reading};
use crate::case::Rgba;

impl Model<'_> {
    /// Adds pixel `p` at the end of cluster `k`.
    pub(super) fn add(&mut self, p: u32, k: u32) {
        let (x, y) = self.place(p);
        let color = self.case.pixel(p);
        let collects = self.reads(Reading::ResidueCollectsInStageOne);
        let pixel_rect = match self.reading {
            Reading::RectFromOrigin => [0, 0, x + 1, y + 1],
            _ => [x, y, x + 1, y + 1],
        };
        let cluster = self.cluster_mut(k);
        cluster.list.push(p);
        merge_sums(&mut cluster.sum, sum_of(color));
        merge_rects(&mut cluster.rect, pixel_rect);
        if collects {
            merge_sums(&mut cluster.residue, sum_of(color));
        }
    }

    /// What every plain merge does: `to` takes over the pixels of `from`, which is left empty.
    pub(super) fn combine(&mut self, from: u32, to: u32) {
        self.hand_on(from, to);
        let keeps_rect = self.reads(Reading::PlainKeepsRect);
        let source = self.cluster_mut(from);
        source.list = Vec::new();
        source.sum = [0; 5];
        if !keeps_rect {
            source.rect = [0; 4];
        }
        if self.reads(Reading::ResidueCollectsInStageOne) {
            self.hand_on_residue(from, to);
        }
    }

    /// A plain merge of stage 2.
    pub(super) fn merge_plainly(&mut self, from: u32, to: u32, hollow: bool) {
        let residue_goes = !matches!(
            self.reading,
            Reading::ResidueOnlyItsOwn | Reading::ResidueCollectsInStageOne
        );
        if residue_goes {
            self.hand_on_residue(from, to);
        }
        self.combine(from, to);
        self.misread_plain_merge(from, to, hollow);
    }

    /// A deepening merge: `from` stays as it is, inside `to`.
    pub(super) fn deepen(&mut self, from: u32, to: u32, hollow: bool) {
        self.hand_on(from, to);
        self.cluster_mut(from).merged_into = to;
        let from_depth = self.cluster(from).depth;
        match self.reading {
            Reading::DepthOfFrom => self.cluster_mut(from).depth += 1,
            Reading::DepthAsMaximum => {
                let target = self.cluster_mut(to);
                target.depth = target.depth.max(from_depth + 1);
            }
            _ => self.cluster_mut(to).depth += 1,
        }
        if hollow || self.reads(Reading::HollowAlways) {
            self.append_hole(from, to);
        }
        match self.reading {
            Reading::DeepeningAddsResidue => self.hand_on_residue(from, to),
            Reading::DeepeningClearsFrom => {
                let source = self.cluster_mut(from);
                source.list = Vec::new();
                source.sum = [0; 5];
                source.rect = [0; 4];
            }
            _ => {}
        }
    }

    /// `to` also holds what `from` holds: list, labels, sum and rectangle.
    fn hand_on(&mut self, from: u32, to: u32) {
        let source = self.cluster(from).clone();
        for &p in &source.list {
            self.labels[p as usize] = to;
        }
        let reading = self.reading;
        let target = self.cluster_mut(to);
        match reading {
            Reading::FromListFirst => target.list.splice(..0, source.list).for_each(drop),
            _ => target.list.extend(source.list),
        }
        if reading == Reading::ListsInImageOrder {
            target.list.sort_unstable();
        }
        merge_sums(&mut target.sum, source.sum);
        merge_rects(&mut target.rect, source.rect);
        if reading == Reading::EmptyRectMerged && source.rect == [0; 4] {
            target.rect[..2].fill(0);
        }
    }

    fn hand_on_residue(&mut self, from: u32, to: u32) {
        let residue = self.cluster(from).residue;
        merge_sums(&mut self.cluster_mut(to).residue, residue);
    }

    fn append_hole(&mut self, from: u32, to: u32) {
        let reading = self.reading;
        let children = &mut self.cluster_mut(to).hole_children;
        match reading {
            Reading::HolesPrepended => children.insert(0, from),
            _ => children.push(from),
        }
    }

    /// What wrong readings add to a plain merge.
    fn misread_plain_merge(&mut self, from: u32, to: u32, hollow: bool) {
        match self.reading {
            Reading::PlainClearsResidue => self.cluster_mut(from).residue = [0; 5],
            Reading::PlainMovesHoles => {
                let children = std::mem::take(&mut self.cluster_mut(from).hole_children);
                self.cluster_mut(to).hole_children.extend(children);
            }
            Reading::PlainDropsHoles => self.cluster_mut(from).hole_children.clear(),
            Reading::PlainAppendsHole if hollow => self.append_hole(from, to),
            Reading::PlainAddsDepth => {
                let depth = self.cluster(from).depth;
                self.cluster_mut(to).depth += depth;
            }
            Reading::PlainRaisesDepth => self.cluster_mut(to).depth += 1,
            Reading::PlainClearsDepth => self.cluster_mut(from).depth = 0,
            Reading::PlainSetsMergedInto => self.cluster_mut(from).merged_into = to,
            Reading::MergedIntoFollows => {
                for cluster in &mut self.clusters {
                    if cluster.merged_into == from && from != 0 {
                        cluster.merged_into = to;
                    }
                }
            }
            _ => {}
        }
    }
}

/// A sum of one pixel.
fn sum_of([r, g, b, a]: Rgba) -> [u32; 5] {
    [r.into(), g.into(), b.into(), a.into(), 1]
}

fn merge_sums(to: &mut [u32; 5], from: [u32; 5]) {
    for (total, part) in to.iter_mut().zip(from) {
        *total += part;
    }
}

/// The smallest rectangle around both; the one of no pixels is all zeros.
fn merge_rects(to: &mut [u32; 4], from: [u32; 4]) {
    if from == [0; 4] {
        return;
    }
    if *to == [0; 4] {
        *to = from;
        return;
    }
    to[0] = to[0].min(from[0]);
    to[1] = to[1].min(from[1]);
    to[2] = to[2].max(from[2]);
    to[3] = to[3].max(from[3]);
}
