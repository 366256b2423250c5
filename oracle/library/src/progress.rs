//! How far a part is, on standard error, every ten seconds while it lasts.
use std::time::{Duration, Instant};

const EVERY: Duration = Duration::from_secs(10);

pub struct Progress {
    begun: Instant,
    said: Instant,
}

impl Progress {
    pub fn new() -> Progress {
        Progress { begun: Instant::now(), said: Instant::now() }
    }

    pub fn tell(&mut self, done: usize, all: usize, what: &str) {
        if self.said.elapsed() >= EVERY {
            eprintln!("          {done} of {all} {what}, {} s", self.begun.elapsed().as_secs());
            self.said = Instant::now();
        }
    }
}
