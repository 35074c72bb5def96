//! How the stored sheets are made: which calls `sample/sheet.txt` holds, and its text. The answers
//! are the plain reading's.

use crate::generate::{LONG, random_sheet_call};
use crate::sample::{SheetAnswer, sheet_line};
use crate::{Outcome, Random, SheetCall, reference};

/// Seed of the random calls.
pub const SEED: u64 = 6;
/// Random calls.
const RANDOM: usize = 8;
/// Random calls with more bytes of rows are left out.
const SHORT: usize = 120;

/// The text of `sheet.txt`.
pub fn make() -> String {
    let lines: Vec<String> = calls()
        .iter()
        .map(|call| sheet_line(call, &answer(call)))
        .collect();
    format!(
        "\
# Sheets of document 02, made by make_sheet_sample from the plain reading.
# One call a line, fields in hexadecimal, '-' is an empty field.
# The number is 0 for done, else the refusal, with its places. A refused call is lent under 20 bytes.
# sheet: threshold lengths rows number first second text
# {} calls, random ones with seed {SEED}.
{}
",
        lines.len(),
        lines.join("\n")
    )
}

fn answer(call: &SheetCall) -> SheetAnswer {
    let mut text = vec![0; call.room];
    let outcome = reference::write_sheet(call.threshold, &call.rows, &call.lengths, &mut text);
    match outcome {
        Outcome::Done(count) => text.truncate(count),
        Outcome::Refused { .. } => text.clear(),
    }
    SheetAnswer { outcome, text }
}

fn calls() -> Vec<SheetCall> {
    let mut random = Random::from_seed(SEED);
    let mut calls = document_sheets();
    calls.extend(digits_gained(&mut random));
    calls.extend(bounds(&mut random));
    calls.extend(refused());
    calls.extend(some_random(&mut random));
    calls
}

/// Document 02's example, and a holder's own part of it.
fn document_sheets() -> Vec<SheetCall> {
    let g = [vec![1, 0x2f], vec![2, 0x20], vec![3, 0x25]];
    vec![
        SheetCall::of_rows(2, &g),
        SheetCall::of_rows(2, &g[..1]),
        SheetCall::of_rows(3, &g[1..]),
    ]
}

/// Rows with identifiers from `first` on.
fn rows(random: &mut Random, first: u8, count: usize, values: usize) -> Vec<Vec<u8>> {
    let ids = (first..=255).take(count);
    ids.map(|id| [vec![id], random.bytes(values)].concat())
        .collect()
}

/// Each number of a sheet just before and just after it gains a digit.
fn digits_gained(random: &mut Random) -> Vec<SheetCall> {
    let numbers = [9, 10, 99, 100];
    let ids = numbers.map(|id| SheetCall::of_rows(id.into(), &rows(random, id, 1, 2)));
    let counts = [9, 10].map(|count| SheetCall::of_rows(2, &rows(random, 1, count, 1)));
    let lengths = [9, 10, 15, 16, 17, 99, 100, 999, 1000]
        .map(|values| SheetCall::of_rows(2, &rows(random, 200, 1, values)));
    [ids.to_vec(), counts.to_vec(), lengths.to_vec()].concat()
}

/// The largest numbers, but for a long row in the place of the longest, and every value.
fn bounds(random: &mut Random) -> Vec<SheetCall> {
    let every_value: Vec<u8> = [255].into_iter().chain(0..=255).collect();
    vec![
        SheetCall::of_rows(255, &rows(random, 1, 255, 1)),
        SheetCall::of_rows(255, &rows(random, 255, 1, LONG)),
        SheetCall::of_rows(2, &[every_value]),
    ]
}

/// Every refusal but 10, whose rows would make the line too long, most of them where the next ones of
/// the order hold as well.
fn refused() -> Vec<SheetCall> {
    let of = |threshold, rows: &[u8], lengths: &[u32]| SheetCall {
        room: 0,
        ..SheetCall::of_storage(threshold, rows.to_vec(), lengths)
    };
    vec![
        of(0, &[1], &[]),
        of(0, &[0, 9], &[1]),
        of(2, &[1, 9, 2, 9], &[u32::MAX, 5]),
        of(0, &[], &[]),
        of(256, &[], &[]),
        of(0, &[0], &[1]),
        of(0, &[], &[0]),
        of(2, &[0, 9, 0], &[2, 1]),
        of(2, &[0, 9, 0, 9, 9], &[2, 3]),
        of(0, &[5, 9, 5, 9, 0, 9, 0, 9], &[2; 4]),
        of(2, &[0, 9], &[2]),
        of(0, &[5, 9, 7, 9, 7, 9, 5, 9], &[2; 4]),
        of(256, &[1, 9, 7, 9, 7, 9, 7, 9], &[2; 4]),
        of(0, &[1; LONG + 2], &[LONG as u32 + 2]),
        of(0, &[1, 9], &[2]),
        of(1, &[1, 9], &[2]),
        of(256, &[1, 9], &[2]),
        of(usize::MAX, &[1, 9], &[2]),
        of(2, &[1, 9], &[2]),
        of(255, &[1, 9, 255, 9], &[2, 2]),
    ]
}

fn some_random(random: &mut Random) -> Vec<SheetCall> {
    let mut calls = Vec::new();
    while calls.len() < RANDOM {
        let call = random_sheet_call(random);
        let text = reference::sheet_text(call.threshold, &call.rows, &call.lengths);
        // Refused ones are written out above.
        if let (Ok(text), true) = (text, call.rows.len() <= SHORT) {
            let room = text.len();
            calls.push(SheetCall { room, ..call });
        }
    }
    calls
}
