//! What was tried, and what of it passed.

use std::collections::BTreeMap;
use std::fmt;

/// Failures beyond this number are counted and not told.
const TOLD: u64 = 3;

#[derive(Default)]
pub struct Tally {
    passed: u64,
    failed: u64,
    counts: BTreeMap<&'static str, u64>,
}

impl Tally {
    pub fn failed(&self) -> u64 {
        self.failed
    }

    pub fn pass(&mut self) {
        self.passed += 1;
    }

    /// A failure; what there is to tell of it is made only if it is told.
    pub fn fail(&mut self, tell: impl FnOnce() -> String) {
        self.failed += 1;
        if self.failed <= TOLD {
            println!("{}", tell());
        }
    }

    pub fn count(&mut self, what: &'static str, more: usize) {
        *self.counts.entry(what).or_default() += more as u64;
    }

    /// Keeps the largest number met.
    pub fn most(&mut self, what: &'static str, number: usize) {
        let most = self.counts.entry(what).or_default();
        *most = (*most).max(number as u64);
    }
}

impl fmt::Display for Tally {
    fn fmt(&self, out: &mut fmt::Formatter) -> fmt::Result {
        for (what, number) in &self.counts {
            writeln!(out, "{what}: {number}")?;
        }
        writeln!(out, "{} passed, {} failed", self.passed, self.failed)
    }
}
