//! Several charts at once, in parallel. One that fails is reported and does not stop the others.

use std::panic::{catch_unwind, AssertUnwindSafe};

use indicatif::{ProgressBar, ProgressDrawTarget, ProgressStyle};
use rayon::iter::{IntoParallelRefIterator, ParallelIterator};
use rayon::ThreadPoolBuilder;

use crate::failure::Failure;

/// Does `work` for each item, `jobs` of them at the same time or as many as there are processors, and
/// answers what came of each, in their order. A failure is told on standard error under the item's name
/// as soon as it happens.
pub fn each<T: Sync, R: Send>(
    jobs: Option<u16>,
    items: &[T],
    name: impl Fn(&T) -> String + Sync,
    work: impl Fn(&T) -> Result<R, Failure> + Sync,
) -> Result<Vec<Result<R, Failure>>, Failure> {
    let threads = usize::from(jobs.unwrap_or(0)).min(items.len());
    let pool = ThreadPoolBuilder::new().num_threads(threads).build();
    let pool = pool.map_err(|error| Failure::File(format!("no threads can be had: {error}")))?;
    let progress = progress(items.len());
    let one = |item: &T| {
        let result = caught(|| work(item));
        if let Err(failure) = &result {
            progress.suspend(|| tell(&name(item), failure));
        }
        progress.inc(1);
        result
    };
    let results = pool.install(|| items.par_iter().map(one).collect());
    progress.finish_and_clear();
    Ok(results)
}

/// Says on standard error why something named failed.
pub fn tell(name: &str, failure: &Failure) {
    eprintln!("sheet: {name}: {failure}");
}

/// A line on a terminal; nothing where standard error is no terminal, or for one chart.
fn progress(length: usize) -> ProgressBar {
    let target = match length {
        0 | 1 => ProgressDrawTarget::hidden(),
        _ => ProgressDrawTarget::stderr(),
    };
    let bar = ProgressBar::with_draw_target(Some(length as u64), target);
    match ProgressStyle::with_template("{bar:30} {pos} of {len} charts, {elapsed}") {
        Ok(style) => bar.with_style(style),
        Err(_) => bar,
    }
}

/// A panic, should a library have one, ends the work on one chart only.
fn caught<R>(work: impl FnOnce() -> Result<R, Failure>) -> Result<R, Failure> {
    let panicked = |_| {
        Err(Failure::Internal(
            "the program stopped on this chart".to_string(),
        ))
    };
    catch_unwind(AssertUnwindSafe(work)).unwrap_or_else(panicked)
}

#[cfg(test)]
mod tests {
    use super::*;

    #[test]
    fn one_failure_leaves_the_others() {
        let half = |number: &u32| match number % 2 {
            0 => Ok(number / 2),
            _ => Err(Failure::File("odd".to_string())),
        };
        for jobs in [None, Some(1), Some(3)] {
            let results = each(jobs, &[4, 5, 6], u32::to_string, half).unwrap();
            let good: Vec<Option<u32>> = results.into_iter().map(Result::ok).collect();
            assert_eq!(good, [Some(2), None, Some(3)]);
        }
    }

    #[test]
    fn a_panic_is_a_failure() {
        let broken = || -> Result<(), Failure> { panic!("as a test") };
        assert!(matches!(caught(broken), Err(Failure::Internal(_))));
    }
}
