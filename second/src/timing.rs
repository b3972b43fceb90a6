//! A timing aid: how long the statements of a unit take.

use second::{image, run, State};
use std::hint::black_box;
use std::io::{self, Write};
use std::time::Instant;

/// The statements that each run may complete. It is so large that any run of use ends before.
const ALLOWANCE: u64 = 100_000_000;

/// Runs the unit `runs` times from its image, checks included, and prints the statements
/// completed in all and the nanoseconds a statement took, by the median run and the fastest.
pub fn time(unit: &[u8], runs: usize) -> io::Result<()> {
    let image = image(unit);
    let mut statements = 0;
    let mut times = Vec::new();
    for _ in 0..runs {
        let mut data = image.clone();
        let start = Instant::now();
        let outcome = run(
            black_box(unit),
            black_box(&mut data),
            State::START,
            ALLOWANCE,
        );
        let nanoseconds = start.elapsed().as_nanos() as f64;
        black_box(&data);
        statements += outcome.count;
        times.push(nanoseconds / outcome.count as f64);
    }
    if statements == 0 {
        return Err(io::Error::other("no statement was completed"));
    }
    times.sort_by(f64::total_cmp);
    let (median, least) = (times[times.len() / 2], times[0]);
    let mut out = io::stdout().lock();
    writeln!(out, "{statements} statements completed in {runs} runs")?;
    writeln!(out, "{median:.2} ns per statement, least {least:.2} ns")
}
