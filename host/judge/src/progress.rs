//! A line on standard error that says how far a long run is.

use std::io::{stderr, IsTerminal, Write};
use std::time::{Duration, Instant};

const EVERY: Duration = Duration::from_millis(500);

pub struct Progress {
    shown: bool,
    start: Instant,
    last: Instant,
    wrote: bool,
}

impl Progress {
    /// Shown on a terminal, or when asked for.
    pub fn new(asked: bool) -> Self {
        let now = Instant::now();
        Self {
            shown: asked || stderr().is_terminal(),
            start: now,
            last: now,
            wrote: false,
        }
    }

    pub fn seconds(&self) -> f64 {
        self.start.elapsed().as_secs_f64()
    }

    /// Now and then, what `text` gives.
    pub fn now_and_then(&mut self, text: impl FnOnce() -> String) {
        if self.shown && self.last.elapsed() >= EVERY {
            self.last = Instant::now();
            self.write(&text());
        }
    }

    pub fn say(&mut self, what: &str) {
        if self.shown {
            self.write(what);
        }
    }

    fn write(&mut self, text: &str) {
        // Progress that can't be shown is no fault.
        let _ = write!(stderr(), "\r{text:<70}").and_then(|()| stderr().flush());
        self.wrote = true;
    }

    /// The line is done with.
    pub fn end(&mut self) {
        if std::mem::take(&mut self.wrote) {
            let _ = writeln!(stderr());
        }
    }
}
