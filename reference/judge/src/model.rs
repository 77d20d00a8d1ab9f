//! The rules as a plain program, written from them and not from the original, with a switch
//! for each wrong reading of them that the recorded answers have to tell apart.

mod finish;
mod merge;
mod reading;
mod stage_1;
mod stage_2;

use std::collections::BTreeSet;

pub use reading::Reading;

use crate::answer::{Answer, Cluster};
use crate::case::{Case, KeyingAction, NO_KEY};

/// The answer to `case` under one reading of the rules.
pub fn answer(case: &Case, reading: Reading) -> Answer {
    let mut model = Model::new(case, reading);
    model.stage_1();
    model.stage_2();
    model.finish()
}

/// The labels with which stage 1 ends.
pub fn stage_1_labels(case: &Case) -> Vec<u32> {
    let mut model = Model::new(case, Reading::Right);
    model.stage_1();
    model.labels
}

/// The state of a run.
struct Model<'a> {
    case: &'a Case,
    reading: Reading,
    labels: Vec<u32>,
    clusters: Vec<Cluster>,
    /// The number that the next fresh cluster takes.
    next: u32,
    /// The areas of stage 2 so far, also those already taken.
    listed: BTreeSet<u32>,
    /// Clusters that were passed over and have not grown since; one wrong reading asks.
    passed_over: Vec<bool>,
    outputs: Vec<u32>,
}

impl<'a> Model<'a> {
    fn new(case: &'a Case, reading: Reading) -> Self {
        Self {
            case,
            reading,
            labels: vec![0; case.area() as usize],
            clusters: vec![Cluster::default()],
            next: 1,
            listed: BTreeSet::new(),
            passed_over: Vec::new(),
            outputs: Vec::new(),
        }
    }

    /// True where the model runs under this wrong reading.
    fn reads(&self, reading: Reading) -> bool {
        self.reading == reading
    }

    fn cluster(&self, k: u32) -> &Cluster {
        &self.clusters[k as usize]
    }

    fn cluster_mut(&mut self, k: u32) -> &mut Cluster {
        &mut self.clusters[k as usize]
    }

    fn label(&self, p: u32) -> u32 {
        self.labels[p as usize]
    }

    /// The pixel count of cluster `k` now.
    fn count(&self, k: u32) -> u32 {
        self.cluster(k).list.len() as u32
    }

    fn keying_on(&self) -> bool {
        match self.reading {
            Reading::KeyingAlwaysOn => true,
            Reading::KeyingOffForClearKey => self.case.settings.key[3] != 0,
            _ => self.case.settings.key != NO_KEY,
        }
    }

    fn discards(&self) -> bool {
        self.case.settings.keying_action == KeyingAction::Discard
    }

    /// Column and row of pixel `p`.
    fn place(&self, p: u32) -> (u32, u32) {
        (p % self.case.width, p / self.case.width)
    }

    /// The pixel that lies `dx` to the right of and `dy` below `p`, if it is on the image.
    fn beside(&self, p: u32, dx: i32, dy: i32) -> Option<u32> {
        let (x, y) = self.place(p);
        let x = x.checked_add_signed(dx).filter(|&x| x < self.case.width)?;
        let y = y.checked_add_signed(dy).filter(|&y| y < self.case.height)?;
        Some(y * self.case.width + x)
    }
}
