//! Wrong implementations, each of which the comparison has to find: document 01's 'wrong notes that
//! look right', and faults of memory.

mod pair;

use oracle::Outcome::{self, Done};
use oracle::generate::{boundary_calls, random_call, short_calls};
use oracle::{Random, Sharing, compare, reference};

/// The boundary calls, some random ones and the short ones: enough to find what is planted here.
fn faults_of(sharing: &dyn Sharing) -> u64 {
    let mut random = Random::from_seed(7);
    let some = (0..2000).map(|_| random_call(&mut random));
    let calls = boundary_calls()
        .into_iter()
        .chain(some)
        .chain(short_calls(7));
    compare::run_calls(sharing, calls, 7).tally.faults
}

type Split = fn(usize, usize, &[u8], &[u8], &[u8], &mut [u8]) -> Outcome;
type Combine = fn(&[u8], &[u32], &mut [u8]) -> Outcome;

/// The plain reading with one function replaced.
struct With {
    split: Split,
    combine: Combine,
}

impl Sharing for With {
    fn split(
        &self,
        threshold: usize,
        limit: usize,
        secret: &[u8],
        ids: &[u8],
        coefficients: &[u8],
        out: &mut [u8],
    ) -> Outcome {
        (self.split)(threshold, limit, secret, ids, coefficients, out)
    }

    fn combine(&self, rows: &[u8], lengths: &[u32], out: &mut [u8]) -> Outcome {
        (self.combine)(rows, lengths, out)
    }
}

fn with_split(split: Split) -> u64 {
    let combine = reference::combine;
    faults_of(&With { split, combine })
}

fn with_combine(combine: Combine) -> u64 {
    let split = reference::split;
    faults_of(&With { split, combine })
}

#[test]
fn nothing_is_found_where_nothing_is_planted() {
    assert_eq!(with_split(reference::split), 0);
}

#[test]
fn another_byte_field() {
    /// Reduces by 0x1d.
    fn other_product(a: u8, b: u8) -> u8 {
        let mut product = 0;
        for bit in (0..8).rev() {
            let carry = product >> 7;
            product = (product << 1) ^ (carry * 0x1d);
            product ^= (b >> bit & 1) * a;
        }
        product
    }
    let found = with_split(|threshold, limit, secret, ids, coefficients, out| {
        let outcome = reference::split(threshold, limit, secret, ids, coefficients, out);
        if let Done(count) = outcome {
            for row in out[..count].chunks_exact_mut(secret.len() + 1) {
                let id = row[0];
                for (place, value) in row[1..].iter_mut().enumerate() {
                    let above = &coefficients[place * (threshold - 1)..][..threshold - 1];
                    let sum = above
                        .iter()
                        .rev()
                        .fold(0, |sum, c| other_product(sum ^ c, id));
                    *value = secret[place] ^ sum;
                }
            }
        }
        outcome
    });
    assert!(found > 0);
}

#[test]
fn coefficients_read_degree_by_degree() {
    let found = with_split(|threshold, limit, secret, ids, coefficients, out| {
        let mut turned = coefficients.to_vec();
        let degrees = threshold.saturating_sub(1);
        if turned.len() == secret.len().saturating_mul(degrees) {
            for (place, coefficient) in turned.iter_mut().enumerate() {
                let (byte, degree) = (place / degrees, place % degrees);
                *coefficient = coefficients[degree * secret.len() + byte];
            }
        }
        reference::split(threshold, limit, secret, ids, &turned, out)
    });
    assert!(found > 0);
}

#[test]
fn zero_coefficients_replaced() {
    let found = with_split(|threshold, limit, secret, ids, coefficients, out| {
        let nonzero: Vec<u8> = coefficients.iter().map(|&c| c.max(1)).collect();
        reference::split(threshold, limit, secret, ids, &nonzero, out)
    });
    assert!(found > 0);
}

#[test]
fn repeated_identifiers_refused_by_split() {
    let found = with_split(|threshold, limit, secret, ids, coefficients, out| {
        let read = &ids[..limit.min(ids.len())];
        if let Some(place) = (1..read.len()).find(|&i| read[..i].contains(&read[i])) {
            return Outcome::refused_at(7, 0, place);
        }
        reference::split(threshold, limit, secret, ids, coefficients, out)
    });
    assert!(found > 0);
}

#[test]
fn a_repeat_before_a_zero() {
    let found = with_combine(|rows, lengths, out| {
        let outcome = reference::combine(rows, lengths, out);
        let Outcome::Refused {
            number: 6, first, ..
        } = outcome
        else {
            return outcome;
        };
        let width = lengths[0] as usize;
        let ids: Vec<u8> = rows.chunks(width).map(|row| row[0]).collect();
        match (1..first).find(|&i| ids[..i].contains(&ids[i])) {
            Some(place) => Outcome::refused_at(7, 0, place),
            None => outcome,
        }
    });
    assert!(found > 0);
}

#[test]
fn a_wrong_place() {
    let found = with_combine(
        |rows, lengths, out| match reference::combine(rows, lengths, out) {
            Outcome::Refused {
                number: 7,
                first,
                second,
            } => Outcome::refused_at(7, second, first),
            outcome => outcome,
        },
    );
    assert!(found > 0);
}

#[test]
fn the_pair_of_document_01() {
    let found = with_combine(|rows, lengths, out| {
        let outcome = reference::combine(rows, lengths, out);
        let width = lengths.first().copied().unwrap_or(0);
        pair::by_the_first_place(outcome, rows, width)
    });
    assert!(found > 0);
}

#[test]
fn an_output_cleared_before_a_refusal() {
    let found = with_combine(|rows, lengths, out| {
        out.fill(0);
        reference::combine(rows, lengths, out)
    });
    assert!(found > 0);
}

#[test]
fn a_byte_behind_those_written() {
    let found = with_split(|threshold, limit, secret, ids, coefficients, out| {
        let outcome = reference::split(threshold, limit, secret, ids, coefficients, out);
        if let (Done(count), true) = (outcome, !out.is_empty()) {
            let last = out.len() - 1;
            out[last.min(count)] ^= 1;
        }
        outcome
    });
    assert!(found > 0);
}

#[test]
fn room_checked_first() {
    let found = with_split(|threshold, limit, secret, ids, coefficients, out| {
        if out.len() < limit.saturating_mul(secret.len() + 1) {
            return Outcome::refused(12);
        }
        reference::split(threshold, limit, secret, ids, coefficients, out)
    });
    assert!(found > 0);
}

#[test]
fn the_longest_secret_refused() {
    let found = with_combine(
        |rows, lengths, out| match reference::combine(rows, lengths, out) {
            Done(reference::MAX_SECRET) => Outcome::refused(10),
            outcome => outcome,
        },
    );
    assert!(found > 0);
}

/// The plain reading by words, as the C entries give them, with these bits set in each.
struct Words {
    junk: u64,
}

impl Words {
    fn read(&self, outcome: Outcome) -> Outcome {
        Outcome::from_word(outcome.to_word() | self.junk)
    }
}

impl Sharing for Words {
    fn split(
        &self,
        threshold: usize,
        limit: usize,
        secret: &[u8],
        ids: &[u8],
        coefficients: &[u8],
        out: &mut [u8],
    ) -> Outcome {
        self.read(reference::split(
            threshold,
            limit,
            secret,
            ids,
            coefficients,
            out,
        ))
    }

    fn combine(&self, rows: &[u8], lengths: &[u32], out: &mut [u8]) -> Outcome {
        self.read(reference::combine(rows, lengths, out))
    }

    fn combine_length_bytes(&self, rows: &[u8], lengths: &[u8], out: &mut [u8]) -> Option<Outcome> {
        Some(self.read(reference::combine_length_bytes(rows, lengths, out)))
    }
}

/// Every call has to be found wrong, done or refused, and by which bit it is.
#[test]
fn a_bit_of_the_word_that_no_answer_has() {
    let calls: Vec<_> = short_calls(7).into_iter().step_by(50).collect();
    let faults = |junk| compare::run_calls(&Words { junk }, calls.iter().cloned(), 7).tally;
    assert_eq!(faults(0).faults, 0);
    for bit in 48..64 {
        assert_eq!(faults(1 << bit).faults, calls.len() as u64, "bit {bit}");
    }
}
