//! Work on all cores that ends at the first difference, and says how far it is.

use std::sync::atomic::{AtomicBool, AtomicU64, Ordering};
use std::sync::Mutex;
use std::thread;
use std::time::{Duration, Instant};

use super::Difference;

/// How long it is silent between two lines.
const PAUSE: Duration = Duration::from_secs(10);

/// The state that the workers share.
struct Shared<'a> {
    name: &'a str,
    count: u64,
    /// How many indices a worker takes at once.
    stride: u64,
    next: AtomicU64,
    done: AtomicU64,
    stopped: AtomicBool,
    last_line: Mutex<Instant>,
}

/// Compares all indices below `count`, `stride` of them at a time. It ends at the first difference
/// that a worker finds and gives it with its index.
pub fn compare_all(
    name: &str,
    count: u64,
    stride: u64,
    compare: impl Fn(u64) -> Result<(), Difference> + Sync,
) -> Result<(), (u64, Difference)> {
    let shared = Shared {
        name,
        count,
        stride,
        next: AtomicU64::new(0),
        done: AtomicU64::new(0),
        stopped: AtomicBool::new(false),
        last_line: Mutex::new(Instant::now()),
    };
    let cores = thread::available_parallelism().map_or(1, usize::from);
    let found: Vec<(u64, Difference)> = thread::scope(|scope| {
        let workers: Vec<_> = (0..cores)
            .map(|_| scope.spawn(|| shared.work(&compare)))
            .collect();
        workers
            .into_iter()
            .filter_map(|worker| worker.join().expect("a worker panicked"))
            .collect()
    });
    match found.into_iter().min_by_key(|(index, _)| *index) {
        Some(first) => Err(first),
        None => Ok(()),
    }
}

impl Shared<'_> {
    /// Takes strides until none is left or a difference is found.
    fn work(&self, compare: impl Fn(u64) -> Result<(), Difference>) -> Option<(u64, Difference)> {
        while !self.stopped.load(Ordering::Relaxed) {
            let start = self.next.fetch_add(self.stride, Ordering::Relaxed);
            if start >= self.count {
                break;
            }
            let end = self.count.min(start + self.stride);
            for index in start..end {
                if let Err(difference) = compare(index) {
                    self.stopped.store(true, Ordering::Relaxed);
                    return Some((index, difference));
                }
            }
            self.tell(end - start);
        }
        None
    }

    /// Counts what is done, and prints it from time to time.
    fn tell(&self, more: u64) {
        let done = self.done.fetch_add(more, Ordering::Relaxed) + more;
        let mut last_line = self.last_line.lock().expect("no worker panicked");
        if last_line.elapsed() >= PAUSE || done == self.count {
            *last_line = Instant::now();
            eprintln!("{}: {done} of {}", self.name, self.count);
        }
    }
}

#[cfg(test)]
mod tests {
    use super::*;

    fn difference() -> Difference {
        Difference {
            call: String::new(),
            what: vec![],
        }
    }

    #[test]
    fn every_index_is_compared_once() {
        let total = AtomicU64::new(0);
        let compared = compare_all("test", 1_000, 7, |index| {
            total.fetch_add(index, Ordering::Relaxed);
            Ok(())
        });
        assert!(compared.is_ok());
        assert_eq!(total.into_inner(), 499_500);
    }

    #[test]
    fn a_difference_ends_the_work() {
        let compared = compare_all("test", u64::MAX / 2, 1, |index| {
            if index < 100 {
                Ok(())
            } else {
                Err(difference())
            }
        });
        let (index, _) = compared.expect_err("a difference");
        assert!(index >= 100);
    }
}
