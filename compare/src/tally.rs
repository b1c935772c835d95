//! What a test met, by class. A class that was never met fails the test: the
//! comparison would say nothing of it.

use std::time::Instant;

/// Steps of each test: COMPARE_RUNS, or a million.
pub fn runs() -> u64 {
    from_environment("COMPARE_RUNS", 1_000_000)
}

/// The seed of every test: COMPARE_SEED, or 1.
pub fn seed() -> u64 {
    from_environment("COMPARE_SEED", 1)
}

fn from_environment(name: &str, otherwise: u64) -> u64 {
    match std::env::var(name) {
        Ok(text) => match text.parse() {
            Ok(number) => number,
            Err(_) => panic!("{name} is no number: {text}"),
        },
        Err(_) => otherwise,
    }
}

pub struct Tally {
    test: &'static str,
    classes: Vec<&'static str>,
    counts: Vec<u64>,
    began: Instant,
}

impl Tally {
    pub fn new(test: &'static str, classes: &[&'static str]) -> Tally {
        Tally::of(test, &[classes])
    }

    /// Of the classes of several lists.
    pub fn of(test: &'static str, lists: &[&[&'static str]]) -> Tally {
        let classes = lists.concat();
        Tally {
            test,
            counts: vec![0; classes.len()],
            classes,
            began: Instant::now(),
        }
    }

    pub fn meet(&mut self, class: &str) {
        match self.classes.iter().position(|&c| c == class) {
            Some(at) => self.counts[at] += 1,
            None => panic!("{}: no class '{class}'", self.test),
        }
    }

    /// Prints the counts in one line.
    pub fn finish(self) {
        let seconds = self.began.elapsed().as_secs_f64();
        let met: Vec<String> = self
            .classes
            .iter()
            .zip(&self.counts)
            .map(|(class, count)| format!("{class} {count}"))
            .collect();
        println!(
            "compare {}: seed {}, {} in {seconds:.2} s: {}",
            self.test,
            seed(),
            self.counts.iter().sum::<u64>(),
            met.join(", ")
        );
        for (class, &count) in self.classes.iter().zip(&self.counts) {
            assert!(count > 0, "{}: never met: {class}", self.test);
        }
    }
}
