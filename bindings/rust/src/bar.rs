//! How far a long exploration is, on a terminal alone.

use std::fmt;
use std::os::raw::c_int;
use std::sync::{Mutex, PoisonError};
use std::time::{Duration, Instant};

/// After so long something is shown, and then as often.
const AFTER: Duration = Duration::from_millis(500);
const OFTEN: Duration = Duration::from_millis(100);
/// The number of standard error.
const STANDARD_ERROR: c_int = 2;

extern "C" {
    fn isatty(descriptor: c_int) -> c_int;
}

/// A line on standard error, if that is a terminal. It goes when the value does.
pub(crate) struct Bar(Option<Mutex<Line>>);

impl Bar {
    /// For so many runs.
    pub(crate) fn of(total: u64) -> Bar {
        // SAFETY: it takes a number, and answers whether it is the descriptor of a terminal.
        let is_terminal = unsafe { isatty(STANDARD_ERROR) } == 1;
        Bar(is_terminal.then(|| Mutex::new(Line { total, done: 0, length: 0, next: Instant::now() + AFTER })))
    }

    /// One run more is done.
    pub(crate) fn add(&self) {
        if let Some(line) = &self.0 {
            let shown = line.lock().unwrap_or_else(PoisonError::into_inner).add(Instant::now());
            shown.into_iter().for_each(write);
        }
    }
}

impl Drop for Bar {
    fn drop(&mut self) {
        if let Some(line) = &self.0 {
            let cleared = line.lock().unwrap_or_else(PoisonError::into_inner).cleared();
            cleared.into_iter().for_each(write);
        }
    }
}

/// As the macros print, so that a test which keeps what is printed keeps this too.
fn write(words: impl fmt::Display) {
    eprint!("{words}");
}

struct Line {
    total: u64,
    done: u64,
    /// How many columns it has; 0 if nothing is shown.
    length: usize,
    next: Instant,
}

impl Line {
    /// What is to be shown of one run more, when its time has come.
    fn add(&mut self, now: Instant) -> Option<String> {
        // Runs that are done again are not counted twice.
        self.done = self.total.min(self.done + 1);
        if now < self.next {
            return None;
        }
        self.next = now + OFTEN;
        let percent = u128::from(self.done) * 100 / u128::from(self.total.max(1));
        let line = format!("{} of {} runs, {percent} %", self.done, self.total);
        self.length = line.len();
        Some(format!("\r{line}"))
    }

    /// What takes away what is shown.
    fn cleared(&mut self) -> Option<String> {
        let length = std::mem::take(&mut self.length);
        (length > 0).then(|| format!("\r{}\r", " ".repeat(length)))
    }
}

#[cfg(test)]
mod tests {
    use super::*;

    /// Nothing is shown before its time, and then no more often than it may be; it goes as a whole.
    #[test]
    fn what_is_shown() {
        let begin = Instant::now();
        let mut line = Line { total: 400, done: 0, length: 0, next: begin + AFTER };
        assert_eq!((line.add(begin), line.cleared()), (None, None));
        assert_eq!(line.add(begin + AFTER).unwrap(), "\r2 of 400 runs, 0 %");
        assert_eq!(line.add(begin + AFTER + OFTEN / 2), None);
        assert_eq!(line.add(begin + AFTER + OFTEN).unwrap(), "\r4 of 400 runs, 1 %");
        assert_eq!(line.cleared().unwrap(), format!("\r{}\r", " ".repeat("4 of 400 runs, 1 %".len())));
        assert_eq!(line.cleared(), None);
    }
}
