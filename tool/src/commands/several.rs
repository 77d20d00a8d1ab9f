//! What the commands for several charts share: their options, and how what came of each chart is told.

use clap::Args;
use serde::Serialize;

use super::Failed;
use crate::batch;
use crate::failure::{Failure, Outcome};
use crate::output::{print, print_json};
use crate::place::Place;

/// How several charts are worked on, and how they are told.
#[derive(Args, Clone, Copy, Debug)]
pub struct Several {
    /// Print a line of JSON for each chart
    #[arg(long)]
    pub json: bool,

    /// Print nothing where all is well
    #[arg(long, short, conflicts_with = "json")]
    pub quiet: bool,

    /// How many charts are worked on at the same time [default: as many as the machine has processors]
    #[arg(long, value_name = "COUNT", value_parser = clap::value_parser!(u16).range(1..=1024))]
    jobs: Option<u16>,
}

/// One chart to work on.
pub trait Item: Sync {
    fn chart(&self) -> &Place;

    /// The stored sheet that the chart is compared with.
    fn stored(&self) -> Option<&Place> {
        None
    }
}

impl Item for Place {
    fn chart(&self) -> &Place {
        self
    }
}

/// What came of a chart; as JSON it has the names of its fields.
pub trait Told: Serialize + Send {
    fn in_words(&self) -> String;

    /// Whether it is what was hoped for.
    fn is_well(&self) -> bool {
        true
    }
}

impl Several {
    /// Does `work` for each item and prints what came of each, in their order.
    pub fn each<T: Item, R: Told>(
        &self,
        items: &[T],
        work: impl Fn(&T) -> Result<R, Failure> + Sync,
    ) -> Result<Outcome, Failure> {
        let name = |item: &T| item.stored().unwrap_or(item.chart()).chart_name();
        let results = batch::each(self.jobs, items, name, work)?;
        for (item, result) in items.iter().zip(&results) {
            match result {
                Ok(told) if self.json => print_json(told)?,
                Err(failure) if self.json => {
                    print_json(&Failed::of(item.chart(), item.stored(), failure))?
                }
                Ok(told) if !(self.quiet && told.is_well()) => print(&told.in_words())?,
                _ => (),
            }
        }
        let well = |result: &Result<R, Failure>| result.as_ref().is_ok_and(R::is_well);
        Ok(match results.iter().all(well) {
            true => Outcome::Good,
            false => Outcome::Bad,
        })
    }
}
