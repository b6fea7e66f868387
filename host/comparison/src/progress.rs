//! How far a run is: a line on standard error that is written over and over, if that is a terminal.

use std::io::{IsTerminal, stderr};
use std::sync::atomic::{AtomicU64, Ordering::Relaxed};
use std::time::Instant;

/// Milliseconds between two lines.
const PAUSE: u64 = 500;

pub struct Progress {
    what: &'static str,
    total: u64,
    begin: Instant,
    shown: bool,
    done: AtomicU64,
    /// When the next line is due, in milliseconds from the beginning.
    due: AtomicU64,
}

impl Progress {
    /// Of so many images or the like.
    pub fn new(what: &'static str, total: u64) -> Self {
        let (done, due) = (AtomicU64::new(0), AtomicU64::new(PAUSE));
        Progress { what, total, begin: Instant::now(), shown: stderr().is_terminal(), done, due }
    }

    /// One more is done. Any thread may say so.
    pub fn step(&self) {
        let done = self.done.fetch_add(1, Relaxed) + 1;
        if !self.shown {
            return;
        }
        let now = self.begin.elapsed().as_millis() as u64;
        let due = self.due.load(Relaxed);
        let mine = || self.due.compare_exchange(due, now + PAUSE, Relaxed, Relaxed).is_ok();
        if done == self.total || now >= due && mine() {
            eprint!("\r{}\x1b[K", line(self.what, done, self.total, now));
        }
        if done == self.total {
            eprintln!();
        }
    }
}

fn line(what: &str, done: u64, total: u64, milliseconds: u64) -> String {
    let rate = done * 1000 / milliseconds.max(1);
    let left = total.saturating_sub(done) / rate.max(1);
    format!("{done} of {total} {what}, {rate} a second, {}:{:02} left", left / 60, left % 60)
}

#[test]
fn a_line_has_the_rate_and_the_time_left() {
    let expected = "3000 of 93000 images, 1000 a second, 1:30 left";
    assert_eq!(line("images", 3000, 93_000, 3000), expected);
}
