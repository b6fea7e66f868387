//! The best time of functions that take turns.

use std::time::Instant;

/// Rounds in each place: so many, or as many as take so many nanoseconds of each of the two.
const ROUNDS: f64 = 1000.0;
const PLACE_NS: f64 = 2e9;
/// A round calls its function often enough to take so many nanoseconds.
const ROUND_NS: f64 = 20_000.0;

pub fn heading() {
    println!(
        "{:<34}{:>8}{:>13}{:>11}{:>8}{:>8}",
        "what, beside what", "bytes", "library, ns", "other, ns", "ratio", "target"
    );
}

/// One line of the table.
pub struct Row {
    pub what: String,
    pub bytes: usize,
    /// The largest ratio that is wanted, if one is.
    pub target: Option<f64>,
}

impl Row {
    /// Times both, which work on the same places, and prints the line. The places lie apart, so
    /// that the pages that one of them happens to get do not decide.
    pub fn print<P>(&self, places: &mut [P], library: impl Fn(&mut P), other: impl Fn(&mut P)) {
        let library = |calls: usize, place: &mut P| time(calls, place, &library);
        let other = |calls: usize, place: &mut P| time(calls, place, &other);
        let [ours, theirs] = best(places, [&library, &other]);
        self.print_times(ours, theirs);
    }

    /// Prints the line of two times.
    pub fn print_times(&self, ours: f64, theirs: f64) {
        let Row { what, bytes, target } = self;
        let ratio = ours / theirs;
        let target = target.map_or("none".to_string(), |target| format!("<= {target:.1}"));
        println!("{what:<34}{bytes:>8}{ours:>13.0}{theirs:>11.0}{ratio:>8.2}{target:>8}");
    }
}

/// Times so many calls of a function in a place: the nanoseconds of one.
pub type Timed<'a, P> = &'a dyn Fn(usize, &mut P) -> f64;

/// The best time of each function over all places. The last one's decides how often they are called.
pub fn best<P, const N: usize>(places: &mut [P], timed: [Timed<P>; N]) -> [f64; N] {
    let mut best = [f64::MAX; N];
    for place in places {
        let once = timed[N - 1](1, place).max(1.0);
        let calls = (ROUND_NS / once).ceil() as usize;
        let rounds = (PLACE_NS / once).min(ROUNDS).ceil() as usize;
        for _ in 0..rounds {
            for (best, timed) in best.iter_mut().zip(timed) {
                *best = best.min(timed(calls, place));
            }
        }
    }
    best
}

/// The nanoseconds of one call.
pub fn time<P>(calls: usize, place: &mut P, call: impl Fn(&mut P)) -> f64 {
    let start = Instant::now();
    for _ in 0..calls {
        call(place);
    }
    start.elapsed().as_nanos() as f64 / calls as f64
}
