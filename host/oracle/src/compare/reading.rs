//! A reader of sheets beside the plain reading of document 02, and there and back with a writer. The
//! original has neither.

use super::expected::{answered, untouched, written};
use super::sheets::Summary;
use crate::generate::{random_read_call, random_whole_sheet, read_boundary_calls};
use crate::{Guarded, Outcome, Random, ReadCall, SheetCall, reference};

/// Runs every boundary call and `calls` random ones. The reader takes text, output for the first
/// line and output for the rows as the C entry does, and gives its word.
pub fn run(read: impl Fn(&[u8], &mut [u8], &mut [u8]) -> u64, calls: u64, seed: u64) -> Summary {
    let mut judge = Judge::new(read, seed);
    for call in read_boundary_calls() {
        judge.summary.boundary += 1;
        judge.judge(&call);
    }
    let mut random = Random::from_seed(seed);
    for _ in 0..calls {
        judge.summary.random += 1;
        judge.judge(&random_read_call(&mut random));
    }
    judge.summary
}

/// The first fault that is found in these calls.
pub fn first_fault(
    read: impl Fn(&[u8], &mut [u8], &mut [u8]) -> u64,
    calls: &[ReadCall],
    seed: u64,
) -> Option<String> {
    let mut judge = Judge::new(read, seed);
    calls.iter().find_map(|call| {
        judge.judge(call);
        judge.summary.tally.descriptions.pop()
    })
}

/// Runs these texts and no others, with room enough. The seed is that of canaries and of outputs
/// before a call.
pub fn run_texts(
    read: impl Fn(&[u8], &mut [u8], &mut [u8]) -> u64,
    texts: Vec<Vec<u8>>,
    seed: u64,
) -> Summary {
    let mut judge = Judge::new(read, seed);
    for text in texts {
        judge.summary.boundary += 1;
        judge.judge(&ReadCall::of_text(text));
    }
    judge.summary
}

struct Judge<R> {
    read: R,
    /// For canaries and for what the outputs hold before a call.
    random: Random,
    summary: Summary,
}

impl<R: Fn(&[u8], &mut [u8], &mut [u8]) -> u64> Judge<R> {
    fn new(read: R, seed: u64) -> Self {
        Judge {
            read,
            // Another sequence than that of the calls.
            random: Random::from_seed(!seed),
            summary: Summary {
                what: "reading",
                seed,
                ..Summary::default()
            },
        }
    }

    fn judge(&mut self, call: &ReadCall) {
        if let Err(what) = self.compare(call) {
            self.summary.tally.add_fault(format!("{call}: {what}"));
        }
    }

    fn compare(&mut self, call: &ReadCall) -> Result<(), String> {
        let [mut plain_head, mut plain_out] =
            [call.head, call.room].map(|room| self.random.bytes(room));
        let mut head = self.guard(&plain_head);
        let mut out = self.guard(&plain_out);
        let text = self.guard(&call.text);
        let expected = reference::read_sheet(&call.text, &mut plain_head, &mut plain_out);
        self.summary.tally.count(expected);

        let word = (self.read)(text.lend(), head.lend_mut(), out.lend_mut());
        answered(Outcome::from_word(word), expected)?;
        written("the head", &head, &plain_head)?;
        written("the output", &out, &plain_out)?;
        untouched("the text", &text)
    }

    fn guard(&mut self, bytes: &[u8]) -> Guarded<u8> {
        Guarded::new(bytes, &mut self.random, Random::byte)
    }
}

/// Writes `sets` random sets of rows, reads each text, and writes what was read: threshold and rows
/// have to come back, and then the text.
///
/// # Errors
/// The first set that does not come back.
pub fn there_and_back(
    write: impl Fn(usize, &[u8], &[u8], &mut [u8]) -> u64,
    read: impl Fn(&[u8], &mut [u8], &mut [u8]) -> u64,
    sets: usize,
    seed: u64,
) -> Result<(), String> {
    let mut random = Random::from_seed(seed);
    for _ in 0..sets {
        let call = random_whole_sheet(&mut random);
        comes_back(&write, &read, &call).map_err(|what| format!("{call}: {what}"))?;
    }
    Ok(())
}

/// Writes one set of rows, reads the text, and writes what was read.
///
/// # Errors
/// What does not come back.
pub fn comes_back(
    write: impl Fn(usize, &[u8], &[u8], &mut [u8]) -> u64,
    read: impl Fn(&[u8], &mut [u8], &mut [u8]) -> u64,
    call: &SheetCall,
) -> Result<(), String> {
    let done = |count, word| answered(Outcome::from_word(word), Outcome::Done(count));
    let mut text = vec![0; call.room];
    let word = write(call.threshold, &call.rows, &call.lengths, &mut text);
    done(text.len(), word)?;

    let mut head = [0; 12];
    let mut rows = vec![0; call.rows.len()];
    let word = read(&text, &mut head, &mut rows);
    done(rows.len(), word)?;
    let [threshold, count, values] =
        [0, 4, 8].map(|at| u32::from_le_bytes([0, 1, 2, 3].map(|byte| head[at + byte])));
    let lengths = (values + 1).to_le_bytes().repeat(count as usize);
    let threshold = threshold as usize;
    if (threshold, &rows, &lengths) != (call.threshold, &call.rows, &call.lengths) {
        return Err("another threshold or other rows come back".into());
    }

    let mut again = vec![0; text.len()];
    let word = write(threshold, &rows, &lengths, &mut again);
    done(again.len(), word)?;
    match again == text {
        true => Ok(()),
        false => Err("another text comes back".into()),
    }
}
