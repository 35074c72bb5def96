//! Sheets beside a plain writer, since the original writes none.

use std::hint::black_box;
use std::io::Write;

use oracle::SheetCall;

use super::{Case, Group, LONG, Pair, count_written, rows};
use vsss::{MAX_SECRET, MAX_SHARES};

/// Rows, their values, and how fast ours must be at least, in megabytes of text a second: a few, many
/// long ones, and the largest sheet.
const SHAPES: [(usize, usize, Option<f64>); 3] = [
    (4, 32, None),
    (MAX_SHARES, LONG, Some(200.0)),
    (MAX_SHARES, MAX_SECRET, Some(200.0)),
];

const LIMIT: f64 = 2.0;

const THRESHOLD: usize = 2;

pub fn group() -> Group {
    Group {
        name: "sheet",
        numbers: "rows, L",
        beside: "a plain writer",
        cases: SHAPES.map(case).into(),
    }
}

fn case((count, length, least_speed): (usize, usize, Option<f64>)) -> Case {
    Case {
        numbers: vec![count, length],
        limit: LIMIT,
        least_speed,
        prepare: Box::new(move || Box::new(Sheet::new(count, length))),
    }
}

struct Sheet {
    rows: Vec<Vec<u8>>,
    /// The output of the plain writer, which has its room from the first call on.
    text: Vec<u8>,
    // The same rows as ours takes them, and its output.
    call: SheetCall,
    out: Vec<u8>,
}

impl Sheet {
    fn new(count: usize, length: usize) -> Self {
        let rows = rows(count, length);
        let call = SheetCall::of_rows(THRESHOLD, &rows);
        Sheet {
            rows,
            text: Vec::new(),
            out: vec![0; call.room],
            call,
        }
    }

    fn call_ours(&mut self) -> u64 {
        let call = black_box(&self.call);
        let out = black_box(&mut self.out);
        vsss::entry::write_sheet(call.threshold, &call.rows, &call.lengths, out)
    }

    fn call_plain(&mut self) {
        self.text.clear();
        write_plainly(
            black_box(THRESHOLD),
            black_box(&self.rows),
            black_box(&mut self.text),
        );
    }
}

const DIGITS: &[u8; 16] = b"0123456789abcdef";

/// The writer of a programmer who trusts his rows and has nothing to hide.
fn write_plainly(threshold: usize, rows: &[Vec<u8>], text: &mut Vec<u8>) {
    let length = rows[0].len() - 1;
    let _ = writeln!(text, "seal\t{threshold}\t{}\t{length}", rows.len());
    for row in rows {
        let _ = write!(text, "row\t{}\t", row[0]);
        for &value in &row[1..] {
            text.push(DIGITS[usize::from(value >> 4)]);
            text.push(DIGITS[usize::from(value & 15)]);
        }
        text.push(b'\n');
    }
}

impl Pair for Sheet {
    fn ours(&mut self) {
        black_box(self.call_ours());
    }

    fn other(&mut self) {
        self.call_plain();
    }

    fn assert_alike(&mut self) -> usize {
        let count = count_written(self.call_ours());
        self.call_plain();
        assert!(self.out[..count] == self.text, "the sheets differ");
        count
    }
}
