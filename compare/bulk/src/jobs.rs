//! Runs the jobs of a group on all processors. A job's cases depend on its number alone, so the
//! outcome does not depend on the threads.

use crate::difference::Difference;
use std::sync::atomic::{AtomicBool, AtomicUsize, Ordering};
use std::sync::Mutex;
use std::thread;

/// What jobs 0 to `count` - 1 give, in order; or the difference that the lowest of the differing
/// jobs found.
pub fn run_all<T: Send>(
    count: usize,
    job: impl Fn(usize) -> Result<T, Difference> + Sync,
) -> Result<Vec<T>, Difference> {
    let next = AtomicUsize::new(0);
    let stopped = AtomicBool::new(false);
    let done = Mutex::new(Vec::new());
    let work = || {
        while !stopped.load(Ordering::Relaxed) {
            let number = next.fetch_add(1, Ordering::Relaxed);
            if number >= count {
                return;
            }
            let outcome = job(number);
            stopped.fetch_or(outcome.is_err(), Ordering::Relaxed);
            done.lock().expect("no job panics").push((number, outcome));
        }
    };
    let threads = thread::available_parallelism().map_or(1, |threads| threads.get());
    thread::scope(|scope| {
        for _ in 0..threads {
            scope.spawn(work);
        }
    });
    // Jobs are taken in order and each is finished, so every job below a differing one is here.
    let mut outcomes = done.into_inner().expect("no job panics");
    outcomes.sort_by_key(|(number, _)| *number);
    outcomes.into_iter().map(|(_, outcome)| outcome).collect()
}
