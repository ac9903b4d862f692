//! Timing, and the rows of the tables.

use std::time::{Duration, Instant};

/// Each is timed so often, in turns with the others of its row; the best
/// counts.
pub const ROUNDS: usize = 60;
pub const ROUND: Duration = Duration::from_millis(8);

/// Something to time.
pub struct Timed<'a> {
    run: Box<dyn FnMut() + 'a>,
    times: u32,
    best: f64,
}

impl<'a> Timed<'a> {
    pub fn new(run: impl FnMut() + 'a) -> Self {
        let mut timed = Self {
            run: Box::new(run),
            times: 1,
            best: f64::INFINITY,
        };
        // so many times in a round
        loop {
            let start = Instant::now();
            timed.round();
            if start.elapsed() >= ROUND || timed.times >= 1 << 24 {
                return timed;
            }
            timed.times *= 2;
        }
    }

    fn round(&mut self) {
        let start = Instant::now();
        for _ in 0..self.times {
            (self.run)();
        }
        let seconds = start.elapsed().as_secs_f64() / f64::from(self.times);
        self.best = self.best.min(seconds);
    }
}

/// Times all of them in turns, and gives the best of each, in seconds.
pub fn race<const N: usize>(mut all: [Timed<'_>; N]) -> [f64; N] {
    for _ in 0..ROUNDS {
        for timed in &mut all {
            timed.round();
        }
    }
    all.map(|timed| timed.best)
}

pub fn microseconds(seconds: f64) -> String {
    format!("{:.2} µs", seconds * 1e6)
}

/// The head of a table of `row`s.
pub fn head() {
    println!("| | ours | original | ratio | copy of the store | ours / copy |");
    println!("|---|---|---|---|---|---|");
}

pub fn row(name: &str, ours: f64, theirs: f64, copy: f64) {
    println!(
        "| {name} | {} | {} | {:.2} | {} | {:.1} |",
        microseconds(ours),
        microseconds(theirs),
        ours / theirs,
        microseconds(copy),
        ours / copy
    );
}
