//! Times of one call, taken many times.

use std::hint::black_box;
use std::time::{Duration, Instant};

/// How often a case is measured, at different times of a run.
pub const ATTEMPTS: usize = 5;

/// How many calls of a side make up an attempt.
pub const ROUNDS: usize = 100;

/// Nanoseconds of single calls, one a round.
#[derive(Debug, Clone, Default)]
pub struct Times(Vec<f64>);

fn median(times: &[f64]) -> f64 {
    let mut sorted = times.to_vec();
    sorted.sort_by(f64::total_cmp);
    sorted[sorted.len() / 2]
}

impl Times {
    pub fn add(&mut self, time: Duration, calls: u32) {
        self.0.push(time.as_nanos() as f64 / f64::from(calls));
    }

    pub fn best(&self) -> Option<f64> {
        self.0.iter().copied().reduce(f64::min)
    }

    /// The lowest of the attempts' medians: what else runs on the machine can only make calls slower, so that attempt is
    /// the one least disturbed.
    pub fn median(&self) -> Option<f64> {
        self.0.chunks(ROUNDS).map(median).reduce(f64::min)
    }
}

/// One side's median in times of the other's.
pub fn against(times: &Times, other: &Times) -> Option<f64> {
    Some(times.median()? / other.median()?)
}

/// The time of one piece of work; its result is dropped outside.
pub fn time<R>(work: impl FnOnce() -> R) -> Duration {
    let start = Instant::now();
    let result = black_box(work());
    let time = start.elapsed();
    drop(result);
    time
}
