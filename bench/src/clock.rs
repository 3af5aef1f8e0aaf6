//! Best of several runs.

use std::time::{Duration, Instant};

const ENOUGH: Duration = Duration::from_millis(250);
const MOST_RUNS: usize = 40;
/// Short calls are timed in batches of about this length.
const BATCH: Duration = Duration::from_micros(200);

/// The shortest time of a call, in microseconds. It is made at least twice, then until enough time has
/// passed or there were enough runs.
pub fn best_microseconds(mut call: impl FnMut()) -> f64 {
    let first = time_of(1, &mut call);
    let batch = (BATCH.as_nanos() / first.as_nanos().max(1)).clamp(1, 10_000) as u32;
    let start = Instant::now();
    let mut best = time_of(batch, &mut call);
    for _ in 1..MOST_RUNS {
        if start.elapsed() > ENOUGH {
            break;
        }
        best = best.min(time_of(batch, &mut call));
    }
    best.as_nanos() as f64 / batch as f64 / 1_000.0
}

fn time_of(batch: u32, call: &mut impl FnMut()) -> Duration {
    let start = Instant::now();
    for _ in 0..batch {
        call();
    }
    start.elapsed()
}
