// What was run and what came of it, printed at the end on standard error.
use crate::model::rates::Config;
use std::collections::BTreeMap;

#[derive(Default)]
pub struct Counts {
    frames: u64,
    // By rate and duration, by what happened.
    by_config: BTreeMap<(u32, u32), BTreeMap<String, u64>>,
    others: BTreeMap<String, u64>,
    listed: BTreeMap<String, u64>,
    pub unlisted: u64,
}

const UNLISTED_SHOWN: u64 = 20;

impl Counts {
    // A frame that the given Rust and the model both made.
    pub fn frame(&mut self, config: &Config, what: String) {
        self.frames += 1;
        let key = (config.rate.hz, config.duration());
        *self.by_config.entry(key).or_default().entry(what).or_default() += 1;
        if self.frames.is_multiple_of(250_000) {
            eprintln!("oracle: {} frames", self.frames);
        }
    }

    pub fn other(&mut self, what: &str) {
        *self.others.entry(what.to_string()).or_default() += 1;
    }

    pub fn listed(&mut self, what: &str) {
        *self.listed.entry(what.to_string()).or_default() += 1;
    }

    pub fn unlisted(&mut self, config: &Config, what: String) {
        self.unlisted += 1;
        if self.unlisted <= UNLISTED_SHOWN {
            eprintln!(
                "UNLISTED frame {} at {} Hz, {} us: {what}",
                self.frames,
                config.rate.hz,
                config.duration()
            );
        }
    }

    pub fn print(&self) {
        let line = |counts: &BTreeMap<String, u64>| {
            let parts: Vec<String> = counts.iter().map(|(what, n)| format!("{what} {n}")).collect();
            parts.join(", ")
        };
        eprintln!("frames compared: {}", self.frames);
        for ((hz, duration), counts) in &self.by_config {
            eprintln!("  {hz} Hz, {duration} us: {}", line(counts));
        }
        eprintln!("other: {}", line(&self.others));
        eprintln!("listed differences: {}", line(&self.listed));
        eprintln!("unlisted differences: {}", self.unlisted);
    }
}
