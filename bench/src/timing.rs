//! Times of two versions on the same input in turns, and the median of many rounds.

use bench::{Calls, LIBRARY, ORDINARY};
use std::hint::black_box;
use std::time::Instant;

/// Medians over all rounds: of each version's nanoseconds, and of the ratio within a round, whose two calls come one right
/// after the other and so find the machine in the same state.
pub struct Times {
    pub library: f64,
    pub ordinary: f64,
    pub ratio: f64,
}

impl Times {
    /// From the two times of each round.
    pub fn of(rounds: &[(f64, f64)]) -> Times {
        Times {
            library: median(rounds.iter().map(|&(ours, _)| ours)),
            ordinary: median(rounds.iter().map(|&(_, theirs)| theirs)),
            ratio: median(rounds.iter().map(|&(ours, theirs)| ours / theirs)),
        }
    }
}

fn median(values: impl Iterator<Item = f64>) -> f64 {
    let mut values: Vec<f64> = values.collect();
    values.sort_by(f64::total_cmp);
    values[values.len() / 2]
}

/// The nanoseconds that a call takes.
pub fn nanoseconds<R>(call: impl FnOnce() -> R) -> f64 {
    let started = Instant::now();
    black_box(call());
    started.elapsed().as_nanos() as f64
}

/// Times both versions in turns. `once` makes its buffers ready, times the one call that it is about and gives its
/// nanoseconds.
pub fn in_turns(rounds: usize, mut once: impl FnMut(&Calls) -> f64) -> Times {
    let (library, ordinary) = (black_box(LIBRARY), black_box(ORDINARY));
    let mut times = Vec::new();
    for round in 0..=rounds {
        times.push(if round % 2 == 0 {
            let ours = once(&library);
            (ours, once(&ordinary))
        } else {
            let theirs = once(&ordinary);
            (once(&library), theirs)
        });
    }
    // The first round warms caches and is not counted.
    Times::of(&times[1..])
}
