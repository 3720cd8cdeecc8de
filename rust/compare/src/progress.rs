//! How far a long comparison is, said on standard error.

use std::time::{Duration, Instant};

/// So long nothing is said.
const SILENCE: Duration = Duration::from_secs(5);

/// Says now and then how many cases are done; nothing where that is soon over.
pub struct Progress {
    start: Instant,
    said: Instant,
}

impl Progress {
    /// The comparison begins.
    pub fn start() -> Self {
        let now = Instant::now();
        Self {
            start: now,
            said: now,
        }
    }

    /// So many cases of all are done.
    pub fn at(&mut self, function: &str, done: u64, all: u64) {
        if self.said.elapsed() > SILENCE {
            self.said = Instant::now();
            let seconds = self.start.elapsed().as_secs();
            eprintln!("compare: {seconds} s, {function} {done} of {all}");
        }
    }
}
