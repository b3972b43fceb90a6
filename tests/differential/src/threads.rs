//! All the cases of a seed, shared out among threads.

use crate::cases::Case;
use crate::compare::{compare, Difference};
use crate::reached::Reached;
use crate::report;
use std::panic::{catch_unwind, AssertUnwindSafe};
use std::sync::atomic::{AtomicU64, Ordering::Relaxed};
use std::thread;
use std::time::{Duration, Instant};

/// How many cases a thread takes at a time.
const TAKEN: u64 = 256;

/// After so many differences the cases are left.
const DIFFERENCES_MOST: u64 = 5;

/// How long it takes until progress is told, and how often then.
const PROGRESS: Duration = Duration::from_secs(15);

/// What the threads share.
struct Shared {
    seed: u64,
    count: u64,
    /// The first case that no thread has taken yet.
    next: AtomicU64,
    done: AtomicU64,
    differences: AtomicU64,
}

/// Tries one case. A panic on the Rust side is a difference as well.
pub fn attempt(seed: u64, number: u64, reached: &mut Reached) -> Result<(), Difference> {
    let tried = catch_unwind(AssertUnwindSafe(|| {
        compare(&Case::of(seed, number), reached)
    }));
    tried.unwrap_or_else(|_| {
        Err(Difference {
            what: "a panic of the second interpreter or of the harness".to_string(),
            library: String::new(),
            wanted: "no panic".to_string(),
        })
    })
}

/// Tries the cases 0 to `count` - 1, prints what was reached, and tells whether all went well.
pub fn all_cases(count: u64, seed: u64, threads: usize, wants_all: bool) -> bool {
    let shared = Shared {
        seed,
        count,
        next: AtomicU64::new(0),
        done: AtomicU64::new(0),
        differences: AtomicU64::new(0),
    };
    let start = Instant::now();
    let reached = share_out(&shared, threads);
    let done = shared.done.into_inner();
    let differences = shared.differences.into_inner();
    println!("{reached}");
    let rate = done as f64 / start.elapsed().as_secs_f64();
    println!("differential: {done} cases of seed {seed}, {rate:.0} a second: {differences} differ");
    let missing = if wants_all { reached.missing() } else { vec![] };
    for missing in &missing {
        println!("not reached: {missing}");
    }
    differences == 0 && missing.is_empty()
}

/// As many threads as are told, none where that is no number; or as the machine has processors.
pub fn thread_count(told: Option<&str>) -> usize {
    match told {
        Some(told) => told.parse().unwrap_or(0),
        None => thread::available_parallelism().map_or(1, usize::from),
    }
}

/// Runs the threads and tells of their progress; gives what they have reached together.
fn share_out(shared: &Shared, threads: usize) -> Reached {
    let mut sum = Reached::default();
    thread::scope(|scope| {
        let workers: Vec<_> = (0..threads).map(|_| scope.spawn(|| work(shared))).collect();
        let mut told = Instant::now();
        while workers.iter().any(|worker| !worker.is_finished()) {
            thread::sleep(Duration::from_millis(50));
            if told.elapsed() >= PROGRESS {
                told = Instant::now();
                eprintln!("{} of {} cases", shared.done.load(Relaxed), shared.count);
            }
        }
        for worker in workers {
            sum.add(&worker.join().expect("a case's panic is caught"));
        }
    });
    sum
}

/// Takes cases until there are none left or too many differ.
fn work(shared: &Shared) -> Reached {
    let mut reached = Reached::default();
    loop {
        let first = shared.next.fetch_add(TAKEN, Relaxed);
        let behind = shared.count.min(first.saturating_add(TAKEN));
        if first >= behind || shared.differences.load(Relaxed) >= DIFFERENCES_MOST {
            return reached;
        }
        for number in first..behind {
            if let Err(difference) = attempt(shared.seed, number, &mut reached) {
                shared.differences.fetch_add(1, Relaxed);
                let (case, difference) = (
                    report::told(shared.seed, number),
                    report::difference(&difference),
                );
                println!("{case}\n{difference}\n");
            }
        }
        shared.done.fetch_add(behind - first, Relaxed);
    }
}

#[cfg(test)]
mod tests {
    use super::thread_count;

    #[test]
    fn what_is_no_number_is_no_thread() {
        assert_eq!(thread_count(Some("3")), 3);
        assert_eq!(thread_count(Some("0")), 0);
        assert_eq!(thread_count(Some("two")), 0);
        assert!(thread_count(None) > 0);
    }
}
