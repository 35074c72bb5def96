//! An implementation beside the original, where that is at hand, and beside the plain reading.
//!
//! The plain reading says what the answer and every byte of the output are. Where the call is in
//! the original's domain (not refused by 10 to 13) the original has to say the same: the number,
//! or every byte of the rows or of the secret. Where the plain reading refuses by 10 to 12, which
//! come last, the original has to accept. Refusal 13 has no counterpart: its rows are no rows.

mod expected;
pub mod reading;
pub mod sheets;
mod tally;

pub use tally::Tally;

use crate::generate::{Call, LengthBytesCall, boundary_calls, random_call, short_calls};
use crate::{
    CombineCall, Guarded, Original, Outcome, Random, Reference, Sharing, SplitCall,
    original_at_hand, reference,
};
use expected::{Expected, first_difference, untouched};
use std::fmt;

/// Counts of a run, and what was found.
#[derive(Clone, Debug, Default)]
pub struct Summary {
    pub seed: u64,
    pub boundary: u64,
    pub short: u64,
    pub random: u64,
    pub split: u64,
    pub combine: u64,
    /// Calls that the original answered too.
    pub with_original: u64,
    /// Calls refused by 10 to 12 that the original accepts.
    pub beyond_original: u64,
    pub tally: Tally,
}

impl Summary {
    pub fn calls(&self) -> u64 {
        self.split + self.combine
    }

    /// # Panics
    /// With the descriptions, if a fault was found.
    pub fn assert_clean(&self) {
        self.tally.assert_clean(self);
    }
}

impl fmt::Display for Summary {
    fn fmt(&self, f: &mut fmt::Formatter<'_>) -> fmt::Result {
        write!(
            f,
            "seed {}: {} calls ({} boundary, {} short, {} random; {} split, {} combine), {}; \
             {} answered by the original too, {} refused by 10 to 12 that it accepts; {} faults",
            self.seed,
            self.calls(),
            self.boundary,
            self.short,
            self.random,
            self.split,
            self.combine,
            self.tally,
            self.with_original,
            self.beyond_original,
            self.tally.faults
        )
    }
}

/// Runs every boundary call, every short call and `calls` random ones.
pub fn run(sharing: &dyn Sharing, calls: u64, seed: u64) -> Summary {
    let mut judge = Judge::new(sharing, seed);
    for call in boundary_calls() {
        judge.summary.boundary += 1;
        judge.judge(&call);
    }
    for call in short_calls(seed) {
        judge.summary.short += 1;
        judge.judge(&call);
    }
    let mut random = Random::from_seed(seed);
    for _ in 0..calls {
        judge.summary.random += 1;
        judge.judge(&random_call(&mut random));
    }
    judge.summary
}

/// Runs the given calls and no others. The seed is that of canaries and of outputs before a call.
pub fn run_calls(
    sharing: &dyn Sharing,
    calls: impl IntoIterator<Item = Call>,
    seed: u64,
) -> Summary {
    let mut judge = Judge::new(sharing, seed);
    for call in calls {
        judge.judge(&call);
    }
    judge.summary
}

struct Judge<'a> {
    sharing: &'a dyn Sharing,
    original: Option<Original>,
    /// For canaries and for what the output holds before a call.
    random: Random,
    summary: Summary,
}

impl<'a> Judge<'a> {
    fn new(sharing: &'a dyn Sharing, seed: u64) -> Self {
        Judge {
            sharing,
            original: original_at_hand(),
            // Another sequence than that of the calls.
            random: Random::from_seed(!seed),
            summary: Summary {
                seed,
                ..Summary::default()
            },
        }
    }

    fn judge(&mut self, call: &Call) {
        let found = match call {
            Call::Split(call) => self.split(call).map_err(|what| format!("{call}: {what}")),
            Call::Combine(call) => self.combine(call).map_err(|what| format!("{call}: {what}")),
            Call::LengthBytes(call) => self
                .length_bytes(call)
                .map_err(|what| format!("lengths of {} bytes: {what}", call.lengths.len())),
        };
        if let Err(description) = found {
            self.summary.tally.add_fault(description);
        }
    }

    fn split(&mut self, call: &SplitCall) -> Result<(), String> {
        self.summary.split += 1;
        let expected = self.expect(call.room, |out| call.made_of(&Reference, out));
        self.compare_split_with_original(call, &expected)?;

        let [secret, ids, coefficients] =
            [&call.secret, &call.ids, &call.coefficients].map(|bytes| self.guard(bytes));
        let mut out = self.guard(&expected.before);
        let outcome = self.sharing.split(
            call.threshold,
            call.limit,
            secret.lend(),
            ids.lend(),
            coefficients.lend(),
            out.lend_mut(),
        );
        expected.check(outcome, &out)?;
        untouched("the secret", &secret)?;
        untouched("the identifiers", &ids)?;
        untouched("the coefficients", &coefficients)
    }

    fn combine(&mut self, call: &CombineCall) -> Result<(), String> {
        self.summary.combine += 1;
        let expected = self.expect(call.room, |out| {
            reference::combine(&call.rows, &call.lengths, out)
        });
        self.compare_combine_with_original(call, &expected)?;

        let rows = self.guard(&call.rows);
        let lengths = Guarded::new(&call.lengths, &mut self.random, |random| {
            random.word() as u32
        });
        let mut out = self.guard(&expected.before);
        let outcome = self
            .sharing
            .combine(rows.lend(), lengths.lend(), out.lend_mut());
        expected.check(outcome, &out)?;
        untouched("the rows", &rows)?;
        untouched("the lengths", &lengths)?;
        self.combine_across(&call.rows, &call.lengths_as_bytes(), &expected)
    }

    fn length_bytes(&mut self, call: &LengthBytesCall) -> Result<(), String> {
        self.summary.combine += 1;
        let expected = self.expect(call.room, |out| {
            reference::combine_length_bytes(&call.rows, &call.lengths, out)
        });
        self.combine_across(&call.rows, &call.lengths, &expected)
    }

    /// Combine with the lengths as bytes, where there is such an entry.
    fn combine_across(
        &mut self,
        rows: &[u8],
        lengths: &[u8],
        expected: &Expected,
    ) -> Result<(), String> {
        let [rows, lengths] = [rows, lengths].map(|bytes| self.guard(bytes));
        let mut out = self.guard(&expected.before);
        let outcome =
            self.sharing
                .combine_length_bytes(rows.lend(), lengths.lend(), out.lend_mut());
        let Some(outcome) = outcome else {
            return Ok(());
        };
        expected.check(outcome, &out)?;
        untouched("the rows", &rows)?;
        untouched("the lengths as bytes", &lengths)
    }

    /// Works out a call by the plain reading, over an output of random bytes.
    fn expect(&mut self, room: usize, plain: impl FnOnce(&mut [u8]) -> Outcome) -> Expected {
        let expected = Expected::by(plain, self.random.bytes(room));
        self.summary.tally.count(expected.outcome);
        expected
    }

    fn guard(&mut self, bytes: &[u8]) -> Guarded<u8> {
        Guarded::new(bytes, &mut self.random, Random::byte)
    }

    fn compare_split_with_original(
        &mut self,
        call: &SplitCall,
        expected: &Expected,
    ) -> Result<(), String> {
        let Some(original) = self.original else {
            return Ok(());
        };
        let mut coefficients = call.coefficients.clone();
        if matches!(expected.outcome.number(), 10 | 11) {
            // The original draws what it needs: its source must neither end nor have more.
            coefficients.resize(call.coefficients_needed(), 0);
        }
        let answer = (original.split)(
            call.threshold,
            call.limit,
            &call.secret,
            &call.ids,
            &coefficients,
        );
        self.compare_with_original(answer.map(|rows| rows.concat()), expected)
    }

    fn compare_combine_with_original(
        &mut self,
        call: &CombineCall,
        expected: &Expected,
    ) -> Result<(), String> {
        // Where the lengths do not sum to the storage there are no rows to ask about.
        let (Some(original), Some(rows)) = (self.original, call.rows_apart()) else {
            return Ok(());
        };
        self.compare_with_original((original.combine)(&rows), expected)
    }

    fn compare_with_original(
        &mut self,
        answer: Result<Vec<u8>, u32>,
        expected: &Expected,
    ) -> Result<(), String> {
        match (answer, expected.outcome) {
            (
                Ok(_),
                Outcome::Refused {
                    number: 10..=12, ..
                },
            ) => {
                self.summary.beyond_original += 1;
                Ok(())
            }
            (Ok(bytes), Outcome::Done(count)) if bytes == expected.after[..count] => {
                self.summary.with_original += 1;
                Ok(())
            }
            (Err(refused), Outcome::Refused { number, .. }) if refused == number => {
                self.summary.with_original += 1;
                Ok(())
            }
            (Ok(bytes), outcome) => Err(format!(
                "the original is done with {} bytes, the plain reading is {outcome}{}",
                bytes.len(),
                first_difference(&bytes, &expected.after)
            )),
            (Err(number), outcome) => Err(format!(
                "the original refuses by {number}, the plain reading is {outcome}"
            )),
        }
    }
}
