//! What a comparison has counted, on standard error every few seconds.
use std::time::{Duration, Instant};

const EVERY: Duration = Duration::from_secs(3);

pub struct Progress {
    begun: Instant,
    told: Instant,
}

impl Default for Progress {
    fn default() -> Self {
        let now = Instant::now();
        Progress { begun: now, told: now }
    }
}

impl Progress {
    /// The text is told where some seconds have passed.
    pub fn step(&mut self, text: impl FnOnce() -> String) {
        if self.told.elapsed() >= EVERY {
            self.say(&text());
        }
    }

    pub fn say(&mut self, text: &str) {
        self.told = Instant::now();
        eprintln!("{:6.1} s  {text}", self.begun.elapsed().as_secs_f64());
    }
}
