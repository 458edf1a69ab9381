//! Rounds of both sides in turn, and their medians.

use oracle::healing::prepared::Ready;
use std::hint::black_box;
use std::time::Instant;

/// How many rounds of either side are taken; one more goes before them.
pub const ROUNDS: usize = 101;

/// The prepared calls of one side, and how long its rounds took.
pub struct Side<T> {
    first: T,
    calls: Vec<T>,
    nanoseconds: Vec<f64>,
}

impl<T: Ready> Side<T> {
    pub fn of(batch: usize, make: impl Fn(usize) -> T) -> Self {
        Side {
            first: make(0),
            calls: (0..batch).map(make).collect(),
            nanoseconds: Vec::new(),
        }
    }

    /// One round: every input is as at first again, and then the clock runs
    /// over all calls.
    fn round(&mut self) {
        for call in &mut self.calls {
            call.renew(&self.first);
        }
        let start = Instant::now();
        for call in &mut self.calls {
            black_box(&mut *call).run();
        }
        let each = start.elapsed().as_nanos() as f64 / self.calls.len() as f64;
        self.nanoseconds.push(each);
    }

    /// Nanoseconds of a call in the middle one of the rounds but the first.
    fn median(&mut self) -> f64 {
        let rounds = &mut self.nanoseconds[1..];
        rounds.sort_by(f64::total_cmp);
        rounds[rounds.len() / 2]
    }
}

/// Nanoseconds of a call, of the port and of the Rust, by the medians of
/// rounds that are taken in turn.
pub fn medians<P: Ready, R: Ready>(mut port: Side<P>, mut rust: Side<R>) -> [f64; 2] {
    for _ in 0..=ROUNDS {
        port.round();
        rust.round();
    }
    [port.median(), rust.median()]
}
