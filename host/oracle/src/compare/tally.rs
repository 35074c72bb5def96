//! Counts of answers, and the faults that were found.

use crate::Outcome;
use std::fmt;

/// At most this many faults are described; all are counted.
const DESCRIBED: usize = 10;

#[derive(Clone, Debug, Default)]
pub struct Tally {
    pub done: u64,
    /// By number; place 0 is not used.
    pub refused: [u64; 15],
    pub faults: u64,
    pub descriptions: Vec<String>,
}

impl Tally {
    pub(super) fn count(&mut self, outcome: Outcome) {
        match outcome {
            Outcome::Done(_) => self.done += 1,
            Outcome::Refused { number, .. } => self.refused[number as usize] += 1,
        }
    }

    pub(super) fn add_fault(&mut self, description: String) {
        self.faults += 1;
        if self.descriptions.len() < DESCRIBED {
            self.descriptions.push(description);
        }
    }

    /// # Panics
    /// With the summary of the run and the descriptions, if a fault was found.
    pub(super) fn assert_clean(&self, summary: &impl fmt::Display) {
        let faults = self.descriptions.join("\n");
        assert!(self.faults == 0, "{summary}\n{faults}");
    }
}

/// The answers alone.
impl fmt::Display for Tally {
    fn fmt(&self, f: &mut fmt::Formatter<'_>) -> fmt::Result {
        write!(f, "{} done, refused", self.done)?;
        let refused = self.refused.iter().enumerate();
        for (number, count) in refused.filter(|(_, count)| **count > 0) {
            write!(f, " {number}: {count}")?;
        }
        Ok(())
    }
}
