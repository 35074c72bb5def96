//! Combine beside the original's.

use std::hint::black_box;

use oracle::{CombineCall, CombineOriginal};

use super::{Case, Group, LENGTHS, Pair, count_written, rows};

const COUNTS: [usize; 3] = [2, 16, 255];

pub fn group(original: CombineOriginal) -> Group {
    Group {
        name: "combine",
        numbers: "rows, L",
        beside: "the original",
        cases: COUNTS
            .into_iter()
            .flat_map(|count| LENGTHS.map(|length| case(original, count, length)))
            .collect(),
    }
}

fn case(original: CombineOriginal, count: usize, length: usize) -> Case {
    Case {
        numbers: vec![count, length],
        limit: limit(count, length),
        least_speed: None,
        prepare: Box::new(move || Box::new(Combine::new(original, count, length))),
    }
}

/// Most of the shortest call is its two coefficients, whose inverses are chains of products that
/// no work along the rows can hide.
fn limit(count: usize, length: usize) -> f64 {
    match (count, length) {
        (2, 32) => 0.6,
        _ => 0.2,
    }
}

struct Combine {
    original: CombineOriginal,
    rows: Vec<Vec<u8>>,
    // The same rows as ours takes them, and its output.
    storage: Vec<u8>,
    lengths: Vec<u8>,
    out: Vec<u8>,
}

impl Combine {
    fn new(original: CombineOriginal, count: usize, length: usize) -> Self {
        let rows = rows(count, length);
        let call = CombineCall::of_rows(&rows, length);
        Combine {
            original,
            rows,
            lengths: call.lengths_as_bytes(),
            storage: call.rows,
            out: vec![0; call.room],
        }
    }

    fn call_ours(&mut self) -> u64 {
        vsss::entry::combine_bytes(
            black_box(&self.storage),
            black_box(&self.lengths),
            black_box(&mut self.out),
        )
    }

    fn call_original(&self) -> Result<Vec<u8>, u32> {
        (self.original)(black_box(&self.rows))
    }
}

impl Pair for Combine {
    fn ours(&mut self) {
        black_box(self.call_ours());
    }

    fn other(&mut self) {
        let _ = black_box(self.call_original());
    }

    fn assert_alike(&mut self) -> usize {
        let count = count_written(self.call_ours());
        let secret = self.call_original().expect("the original accepts it");
        assert!(self.out[..count] == secret, "the secrets differ");
        count
    }
}
