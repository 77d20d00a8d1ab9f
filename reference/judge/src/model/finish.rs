//! Thinning, layout and picture.

use std::collections::HashSet;

use super::stage_2::{average, rounded_average};
use super::{Model, Reading};
use crate::answer::{lay_out_links, lay_out_table, Answer, Cluster};
use crate::case::CHANNELS;

impl Model<'_> {
    /// Thins the outputs, paints the picture and lays out the answer.
    pub(super) fn finish(mut self) -> Answer {
        self.thin();
        let picture = self.picture();
        let links = self.links();
        if self.reads(Reading::RectInclusive) {
            self.clusters.iter_mut().for_each(make_rect_inclusive);
        }
        Answer {
            links,
            table: lay_out_table(&self.clusters),
            outputs: self.outputs,
            picture,
            labels: self.labels,
        }
    }

    /// Drops the entries whose sum counts nothing.
    fn thin(&mut self) {
        let mut outputs = std::mem::take(&mut self.outputs);
        if !self.reads(Reading::NoThinning) {
            outputs.retain(|&k| self.cluster(k).sum[4] > 0);
        }
        if self.reads(Reading::ThinningDropsRepeats) {
            let mut seen = HashSet::new();
            outputs.retain(|&k| seen.insert(k));
        }
        self.outputs = outputs;
    }

    fn links(&self) -> Vec<u32> {
        let mut links = lay_out_links(&self.labels, &self.clusters);
        match self.reading {
            Reading::InnerListEndsInZero => {
                for last in self.clusters.iter().filter_map(|c| c.list.last()) {
                    links[*last as usize] = 0;
                }
            }
            Reading::DiscardedLinked => {
                let listed: HashSet<u32> = self
                    .clusters
                    .iter()
                    .flat_map(|c| &c.list)
                    .copied()
                    .collect();
                let discarded: Vec<u32> = (0..self.case.area())
                    .filter(|p| !listed.contains(p))
                    .collect();
                for pair in discarded.windows(2) {
                    links[pair[0] as usize] = pair[1] + 1;
                }
            }
            _ => {}
        }
        links
    }

    /// Paints the outputs over zeros, from last to first, with the averages of the residues.
    fn picture(&self) -> Vec<u8> {
        let mut picture = if self.reads(Reading::PaintsOverTheImage) {
            self.case.image.clone()
        } else {
            vec![0; self.case.image.len()]
        };
        let mut order = self.outputs.clone();
        if !self.reads(Reading::PaintsForward) {
            order.reverse();
        }
        for k in order {
            let color = self.painted_color(k);
            for &p in &self.cluster(k).list {
                let start = CHANNELS * p as usize;
                picture[start..start + CHANNELS].copy_from_slice(&color);
            }
        }
        picture
    }

    fn painted_color(&self, k: u32) -> [u8; CHANNELS] {
        let cluster = self.cluster(k);
        let color = match self.reading {
            Reading::PaintsSums => average(cluster.sum),
            Reading::PaintsRounded => rounded_average(cluster.residue),
            _ => average(cluster.residue),
        };
        let mut bytes = color.map(|channel| channel as u8);
        if self.reads(Reading::PaintsOpaque) {
            bytes[3] = 255;
        }
        bytes
    }
}

fn make_rect_inclusive(cluster: &mut Cluster) {
    if !cluster.list.is_empty() {
        cluster.rect[2] -= 1;
        cluster.rect[3] -= 1;
    }
}
