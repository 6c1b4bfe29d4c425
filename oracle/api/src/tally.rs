//! What was compared.

use std::collections::BTreeMap;
use std::fmt;

/// How many calls had each outcome.
#[derive(Clone, Debug, Default, PartialEq, Eq)]
pub struct Tally(BTreeMap<&'static str, usize>);

impl Tally {
    pub fn add(&mut self, outcome: &'static str) {
        *self.0.entry(outcome).or_default() += 1;
    }

    pub fn join(&mut self, other: &Tally) {
        for (outcome, count) in &other.0 {
            *self.0.entry(outcome).or_default() += count;
        }
    }

    pub fn of(&self, outcome: &str) -> usize {
        self.0.get(outcome).copied().unwrap_or(0)
    }

    pub fn calls(&self) -> usize {
        self.0.values().sum()
    }

    /// How many of them were on damaged buffers.
    pub fn damaged(&self) -> usize {
        self.of("not W") + self.of("refused 2")
    }
}

impl fmt::Display for Tally {
    fn fmt(&self, to: &mut fmt::Formatter) -> fmt::Result {
        if self.0.is_empty() {
            return to.write_str("no call");
        }
        let counts = self.0.iter();
        let counts: Vec<String> = counts
            .map(|(outcome, count)| format!("{count} {outcome}"))
            .collect();
        to.write_str(&counts.join(", "))
    }
}
