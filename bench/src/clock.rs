//! Rounds of several sides in turn, and their median with its spread.

use std::fmt;
use std::time::Instant;

/// What is timed, with what it writes.
pub trait Turn {
    /// The records, texts or terms of a round.
    fn count(&self) -> usize;
    /// Before each round, outside the clock.
    fn clear(&mut self);
    fn round(&mut self);
    /// Are these the answers of a round? Else what is wrong.
    fn answers(&self) -> Result<(), String>;
}

/// Nanoseconds a record: the median of the rounds, and their 10th and 90th percentile.
pub struct Figure {
    pub median: f64,
    low: f64,
    high: f64,
}

impl Figure {
    pub fn over(&self, other: &Figure) -> f64 {
        self.median / other.median
    }
}

impl fmt::Display for Figure {
    fn fmt(&self, f: &mut fmt::Formatter<'_>) -> fmt::Result {
        write!(f, "{:.1} ns ({:.1}..{:.1})", self.median, self.low, self.high)
    }
}

/// Times sides in turn, so that a disturbance of the machine meets all of them, each round with cleared slots and in a rotated order. The answers of the last
/// round are compared once more.
pub fn clock<T: Turn>(mut turns: Vec<T>, rounds: usize, warming: usize) -> Result<Vec<Figure>, String> {
    let mut times = vec![Vec::with_capacity(rounds); turns.len()];
    for round in 0..warming + rounds {
        for turn in 0..turns.len() {
            let n = (round + turn) % turns.len();
            let side = &mut turns[n];
            side.clear();
            let start = Instant::now();
            side.round();
            let elapsed = start.elapsed();
            if round >= warming {
                times[n].push(elapsed.as_nanos() as f64 / side.count() as f64);
            }
            if round + 1 == warming + rounds {
                side.answers()?;
            }
        }
    }
    Ok(times.into_iter().map(figure).collect())
}

fn figure(mut times: Vec<f64>) -> Figure {
    times.sort_by(f64::total_cmp);
    let at = |percent: usize| times[(times.len() - 1) * percent / 100];
    Figure { median: at(50), low: at(10), high: at(90) }
}
