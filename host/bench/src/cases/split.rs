//! Split beside the original's.

use std::hint::black_box;

use oracle::{Random, SplitCall, SplitOriginal};

use super::{Case, Group, LENGTHS, Pair, SEED, count_written};

/// Threshold and limit.
const SHAPES: [(usize, usize); 3] = [(2, 3), (16, 32), (128, 255)];

/// Of a call. One of the original takes 8 seconds for a thousand million.
const MOST_PRODUCTS: usize = 1 << 28;

const LIMIT: f64 = 0.2;

pub fn group(original: SplitOriginal) -> Group {
    Group {
        name: "split",
        numbers: "t, n, L",
        beside: "the original",
        cases: SHAPES
            .into_iter()
            .flat_map(|shape| LENGTHS.map(|length| (shape, length)))
            .filter(|&((threshold, limit), length)| threshold * limit * length <= MOST_PRODUCTS)
            .map(|(shape, length)| case(original, shape, length))
            .collect(),
    }
}

fn case(original: SplitOriginal, (threshold, limit): (usize, usize), length: usize) -> Case {
    Case {
        numbers: vec![threshold, limit, length],
        limit: LIMIT,
        least_speed: None,
        prepare: Box::new(move || Box::new(Split::new(original, threshold, limit, length))),
    }
}

struct Split {
    original: SplitOriginal,
    call: SplitCall,
    /// The output of ours.
    out: Vec<u8>,
}

impl Split {
    fn new(original: SplitOriginal, threshold: usize, limit: usize, length: usize) -> Self {
        let call = call(threshold, limit, length);
        let out = vec![0; call.room];
        Split {
            original,
            call,
            out,
        }
    }

    fn call_ours(&mut self) -> u64 {
        let call = black_box(&self.call);
        vsss::entry::split_bytes(
            call.threshold,
            call.limit,
            &call.secret,
            &call.ids,
            &call.coefficients,
            black_box(&mut self.out),
        )
    }

    fn call_original(&self) -> Result<Vec<Vec<u8>>, u32> {
        let call = black_box(&self.call);
        (self.original)(
            call.threshold,
            call.limit,
            &call.secret,
            &call.ids,
            &call.coefficients,
        )
    }
}

/// A call with exactly the coefficients and the room that it needs.
fn call(threshold: usize, limit: usize, length: usize) -> SplitCall {
    let mut random = Random::from_seed(SEED);
    let mut call = SplitCall {
        threshold,
        limit,
        secret: random.bytes(length),
        ids: random.distinct_ids(limit),
        coefficients: Vec::new(),
        room: 0,
    };
    call.coefficients = random.bytes(call.coefficients_needed());
    call.room = call.bytes_written();
    call
}

impl Pair for Split {
    fn ours(&mut self) {
        black_box(self.call_ours());
    }

    fn other(&mut self) {
        let _ = black_box(self.call_original());
    }

    fn assert_alike(&mut self) -> usize {
        let count = count_written(self.call_ours());
        let rows = self.call_original().expect("the original accepts it");
        assert!(self.out[..count] == rows.concat(), "the rows differ");
        count
    }
}
