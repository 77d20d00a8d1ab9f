//! Work over a range of indices, on all cores.

use std::ops::Range;
use std::thread;

/// Splits `range` among the cores and gives the results of the parts in order.
pub fn over<T: Send>(range: Range<u64>, work: impl Fn(Range<u64>) -> T + Sync) -> Vec<T> {
    let cores = thread::available_parallelism().map_or(1, |n| n.get() as u64);
    let step = (range.end - range.start).div_ceil(cores).max(1);
    let work = &work;
    thread::scope(|scope| {
        let parts: Vec<_> = (range.start..range.end)
            .step_by(step as usize)
            .map(|start| start..(start + step).min(range.end))
            .map(|part| scope.spawn(move || work(part)))
            .collect();
        parts
            .into_iter()
            .map(|part| part.join().expect("a part of the work panicked"))
            .collect()
    })
}
