//! Cases in as many threads as there are cores. What comes out does not depend on how many these
//! are.

use crate::tally::Kind;
use std::num::NonZero;
use std::ops::Range;
use std::thread;

/// Gives each thread a part of the cases; what each makes of its part, in the order of the cases.
pub fn in_threads<T: Send>(cases: u64, run: impl Fn(Range<u64>) -> T + Sync) -> Vec<T> {
    let count = thread::available_parallelism().map_or(1, NonZero::get) as u64;
    let part = cases.div_ceil(count).max(1);
    thread::scope(|scope| {
        let parts = (0..count).map(|i| (i * part).min(cases)..((i + 1) * part).min(cases));
        let threads: Vec<_> = parts.map(|part| scope.spawn(|| run(part))).collect();
        threads.into_iter().map(|thread| thread.join().expect("no thread panics")).collect()
    })
}

/// The sums of the same kinds, counted in several threads.
pub fn sums(runs: impl IntoIterator<Item = Vec<Kind>>) -> Vec<Kind> {
    let sum = runs.into_iter().reduce(|mut sum, kinds| {
        for (kind, more) in sum.iter_mut().zip(kinds) {
            kind.add(more);
        }
        sum
    });
    sum.unwrap_or_default()
}

#[test]
fn every_case_comes_once_in_order() {
    for cases in [0, 1, 2, 3, 10, 1001] {
        let parts = in_threads(cases, |part| part.collect::<Vec<_>>());
        assert_eq!(parts.concat(), (0..cases).collect::<Vec<_>>());
    }
}
