//! A writer of sheets beside the plain reading of document 02. The original has none.

use super::expected::{Expected, untouched};
use super::tally::Tally;
use crate::generate::{random_sheet_call, sheet_boundary_calls};
use crate::{Guarded, Outcome, Random, SheetCall, reference};
use std::fmt;

/// Counts of a run, and what was found.
#[derive(Clone, Debug, Default)]
pub struct Summary {
    /// What was compared.
    pub what: &'static str,
    pub seed: u64,
    pub boundary: u64,
    pub random: u64,
    pub tally: Tally,
}

impl Summary {
    /// # Panics
    /// With the descriptions, if a fault was found.
    pub fn assert_clean(&self) {
        self.tally.assert_clean(self);
    }
}

impl fmt::Display for Summary {
    fn fmt(&self, f: &mut fmt::Formatter<'_>) -> fmt::Result {
        write!(
            f,
            "{}, seed {}: {} calls ({} boundary, {} random), {}; {} faults",
            self.what,
            self.seed,
            self.boundary + self.random,
            self.boundary,
            self.random,
            self.tally,
            self.tally.faults
        )
    }
}

/// Runs every boundary call and `calls` random ones. The writer takes threshold, rows, lengths and
/// output as the C entry does, and gives its word.
pub fn run(
    write: impl Fn(usize, &[u8], &[u8], &mut [u8]) -> u64,
    calls: u64,
    seed: u64,
) -> Summary {
    let mut judge = Judge {
        write,
        // Another sequence than that of the calls.
        random: Random::from_seed(!seed),
        summary: Summary {
            what: "sheets",
            seed,
            ..Summary::default()
        },
    };
    for call in sheet_boundary_calls() {
        judge.summary.boundary += 1;
        judge.judge(&call);
    }
    let mut random = Random::from_seed(seed);
    for _ in 0..calls {
        judge.summary.random += 1;
        judge.judge(&random_sheet_call(&mut random));
    }
    judge.summary
}

struct Judge<W> {
    write: W,
    /// For canaries and for what the output holds before a call.
    random: Random,
    summary: Summary,
}

impl<W: Fn(usize, &[u8], &[u8], &mut [u8]) -> u64> Judge<W> {
    fn judge(&mut self, call: &SheetCall) {
        if let Err(what) = self.compare(call) {
            self.summary.tally.add_fault(format!("{call}: {what}"));
        }
    }

    fn compare(&mut self, call: &SheetCall) -> Result<(), String> {
        let SheetCall {
            threshold,
            rows,
            lengths,
            room,
        } = call;
        let plain = |out: &mut [u8]| reference::write_sheet(*threshold, rows, lengths, out);
        let expected = Expected::by(plain, self.random.bytes(*room));
        self.summary.tally.count(expected.outcome);

        let [rows, lengths] = [rows, lengths].map(|bytes| self.guard(bytes));
        let mut out = self.guard(&expected.before);
        let word = (self.write)(*threshold, rows.lend(), lengths.lend(), out.lend_mut());
        expected.check(Outcome::from_word(word), &out)?;
        untouched("the rows", &rows)?;
        untouched("the lengths", &lengths)
    }

    fn guard(&mut self, bytes: &[u8]) -> Guarded<u8> {
        Guarded::new(bytes, &mut self.random, Random::byte)
    }
}
