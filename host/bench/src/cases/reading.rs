//! Sheets read, beside a plain reader, since the original reads none.

use std::hint::black_box;

use oracle::line_reader::{self, Head};
use oracle::{SheetCall, reference};

use super::{Case, Group, LONG, Pair, count_written, rows};
use vsss::{MAX_SECRET, MAX_SHARES};

/// Rows and their values: a few, many long ones, and the largest sheet.
const SHAPES: [(usize, usize); 3] = [(4, 32), (MAX_SHARES, LONG), (MAX_SHARES, MAX_SECRET)];

const LIMIT: f64 = 2.0;

const THRESHOLD: usize = 2;

pub fn group() -> Group {
    Group {
        name: "read",
        numbers: "rows, L",
        beside: "a plain reader",
        cases: SHAPES.map(case).into(),
    }
}

fn case((count, length): (usize, usize)) -> Case {
    Case {
        numbers: vec![count, length],
        limit: LIMIT,
        least_speed: None,
        prepare: Box::new(move || Box::new(Reading::new(count, length))),
    }
}

struct Reading {
    text: Vec<u8>,
    /// The output of the plain reader, which has its room from the first call on.
    rows: Vec<u8>,
    // The outputs of ours.
    head: [u8; 12],
    out: Vec<u8>,
}

impl Reading {
    fn new(count: usize, length: usize) -> Self {
        let call = SheetCall::of_rows(THRESHOLD, &rows(count, length));
        let text = reference::sheet_text(call.threshold, &call.rows, &call.lengths);
        Reading {
            text: text.expect("the rows make a sheet").into_bytes(),
            rows: Vec::new(),
            head: [0; 12],
            out: vec![0; call.rows.len()],
        }
    }

    fn call_ours(&mut self) -> u64 {
        let (head, out) = black_box((&mut self.head, &mut self.out));
        vsss::entry::read_sheet(black_box(&self.text), head, out)
    }

    fn call_plain(&mut self) -> Result<Head, usize> {
        line_reader::read(black_box(&self.text), black_box(&mut self.rows))
    }
}

impl Pair for Reading {
    fn ours(&mut self) {
        black_box(self.call_ours());
    }

    fn other(&mut self) {
        let _ = black_box(self.call_plain());
    }

    fn assert_alike(&mut self) -> usize {
        let count = count_written(self.call_ours());
        let head = self.call_plain().expect("it is a sheet");
        let numbers = [head.threshold, head.rows, head.values];
        let numbers = numbers.map(|number| (number as u32).to_le_bytes());
        assert!(self.head[..] == numbers.concat(), "the heads differ");
        assert!(self.out[..count] == self.rows, "the rows differ");
        count
    }
}
