//! How the stored sample is made: which calls it holds, its text, and where it is put.

use crate::generate::{Call, LONG, boundary_calls, random_call};
use crate::sample::{combine_line, split_line};
use crate::{CombineCall, Original, Random, Reference, SplitCall, reference};
use std::fs;
use std::path::{Path, PathBuf};

/// Seed of the random calls.
pub const SEED: u64 = 6;
/// Random calls of each kind.
pub const RANDOM: usize = 300;
/// Longer lines are left out, but for those at a bound and of a long secret.
const LINE_LIMIT: usize = 1200;
/// A row of the longest lines. Those of the longest secret would be as long as all others together,
/// and the original has no limit.
const LONG_ROW: u32 = LONG as u32 + 1;
/// Every boundary with a small line would be too many: refusals in combination are thinned out.
const EVERY: usize = 5;

/// The two files of the sample.
pub struct Sample {
    pub split: String,
    pub combine: String,
}

/// Writes files of the sample to the folder, by default the package's own `sample`, and prints what
/// was written.
///
/// # Errors
/// The first file that cannot be written, and why.
pub fn store(folder: Option<PathBuf>, files: &[(&str, String)]) -> Result<(), String> {
    let own = || Path::new(env!("CARGO_MANIFEST_DIR")).join("sample");
    let folder = folder.unwrap_or_else(own);
    for (name, text) in files {
        let file = folder.join(name);
        fs::write(&file, text).map_err(|error| format!("{}: {error}", file.display()))?;
        println!("{}: {} bytes", file.display(), text.len());
    }
    Ok(())
}

/// Asks the original about every call of the sample.
pub fn make(original: Original) -> Sample {
    let (splits, combines) = sample_calls();
    let split_lines = splits.iter().map(|call| {
        let answer = (original.split)(
            call.threshold,
            call.limit,
            &call.secret,
            &call.ids,
            &call.coefficients,
        );
        split_line(call, &answer.map(|rows| rows.concat()))
    });
    let combine_lines = combines.iter().map(|call| {
        let rows = call.rows_apart().expect("refusal 13 is left out");
        combine_line(call, &(original.combine)(&rows))
    });
    Sample {
        split: text(
            "split: threshold limit secret identifiers coefficients number rows",
            split_lines.collect(),
        ),
        combine: text(
            "combine: lengths rows number secret",
            combine_lines.collect(),
        ),
    }
}

fn text(fields: &str, lines: Vec<String>) -> String {
    let head = [
        "# Answers of vsss-rs 6.0.1, made by make_sample from its unchanged text.",
        "# One call a line, fields in hexadecimal, '-' is an empty field.",
        "# The number is 0 for done, else the refusal of document 01; places are not the original's.",
    ];
    format!(
        "{}\n# {fields}\n# {} calls, random ones with seed {SEED}.\n{}\n",
        head.join("\n"),
        lines.len(),
        lines.join("\n")
    )
}

/// The calls: document 01's values, boundaries, random ones; none that 10 to 13 refuse.
fn sample_calls() -> (Vec<SplitCall>, Vec<CombineCall>) {
    let mut splits = document_splits();
    let mut combines = document_combines();
    let (boundary_splits, boundary_combines) = apart(boundary_calls());
    splits.extend(few_long_splits(boundary_splits));
    combines.extend(few_long_combines(boundary_combines));

    let mut random = Random::from_seed(SEED);
    let some = (0..4 * RANDOM).map(|_| random_call(&mut random)).collect();
    let (random_splits, random_combines) = apart(some);
    let short = |length: usize| length <= LINE_LIMIT;
    splits.extend(
        random_splits
            .into_iter()
            .filter(|call| short(split_length(call)))
            .take(RANDOM),
    );
    combines.extend(
        random_combines
            .into_iter()
            .filter(|call| short(combine_length(call)))
            .take(RANDOM),
    );
    (splits, combines)
}

/// Splits and combines that the original can be asked about.
fn apart(calls: Vec<Call>) -> (Vec<SplitCall>, Vec<CombineCall>) {
    let mut splits = Vec::new();
    let mut combines = Vec::new();
    for call in calls {
        match call {
            Call::Split(call) if split_number(&call) < 10 => splits.push(call),
            Call::Combine(call) if combine_number(&call) < 10 => combines.push(call),
            _ => {}
        }
    }
    (splits, combines)
}

fn split_number(call: &SplitCall) -> u32 {
    let mut out = vec![0; call.room];
    call.made_of(&Reference, &mut out).number()
}

fn combine_number(call: &CombineCall) -> u32 {
    reference::combine(&call.rows, &call.lengths, &mut vec![0; call.room]).number()
}

/// Length of the line, near enough.
fn split_length(call: &SplitCall) -> usize {
    let written = match split_number(call) {
        0 => call.bytes_written(),
        _ => 0,
    };
    2 * (call.secret.len() + call.ids.len() + call.coefficients.len() + written)
}

fn combine_length(call: &CombineCall) -> usize {
    2 * call.rows.len() + 2 * call.lengths.len()
}

/// Short boundary lines thinned out, and one line each at the bounds that make long ones.
fn few_long_splits(calls: Vec<SplitCall>) -> Vec<SplitCall> {
    let at_bound = |call: &SplitCall| {
        let shape = (call.threshold, call.limit, call.secret.len());
        matches!(shape, (2 | 254 | 255, 255, 1) | (2, 3, LONG)) && split_number(call) == 0
    };
    few_long(calls, split_length, at_bound)
}

fn few_long_combines(calls: Vec<CombineCall>) -> Vec<CombineCall> {
    let at_bound = |call: &CombineCall| {
        let shape = (call.lengths.len(), call.room, call.lengths.first());
        matches!(shape, (2, LONG, Some(&LONG_ROW)) | (254..=256, 3, Some(4)))
    };
    few_long(calls, combine_length, at_bound)
}

fn few_long<C>(calls: Vec<C>, length: fn(&C) -> usize, at_bound: impl Fn(&C) -> bool) -> Vec<C> {
    let (bounds, others): (Vec<C>, Vec<C>) = calls.into_iter().partition(at_bound);
    let thinned = others
        .into_iter()
        .filter(|call| length(call) <= LINE_LIMIT)
        .step_by(EVERY);
    bounds.into_iter().chain(thinned).collect()
}

/// Document 01's cases G, I and K, and its repeated identifiers.
fn document_splits() -> Vec<SplitCall> {
    let cases: [(usize, &[u8], &[u8], u8); 4] = [
        (2, &[1, 2, 3], &[5], 0x2a),
        (3, &[1, 2, 3], &[5, 7], 0x2a),
        (2, &[1, 2], &[0x2f], 0),
        (2, &[7, 7], &[5], 0x2a),
    ];
    cases
        .into_iter()
        .map(|(threshold, ids, coefficients, secret)| SplitCall {
            threshold,
            limit: ids.len(),
            secret: vec![secret],
            ids: ids.to_vec(),
            coefficients: coefficients.to_vec(),
            room: 2 * ids.len(),
        })
        .collect()
}

/// Document 01's cases H and J, its repeated identifiers, and its refused rows.
fn document_combines() -> Vec<CombineCall> {
    let cases: [&[&[u8]]; 7] = [
        &[&[1, 0x2f], &[2, 0x20]],
        &[&[1, 0x28], &[2, 0x3c], &[3, 0x3e]],
        &[&[1, 0x28], &[2, 0x3c]],
        &[&[7, 0x31], &[7, 0x31]],
        &[&[1, 9], &[1, 9], &[0, 9]],
        &[&[1], &[2]],
        &[],
    ];
    cases
        .into_iter()
        .map(|rows| {
            let rows: Vec<Vec<u8>> = rows.iter().map(|row| row.to_vec()).collect();
            CombineCall::of_rows(&rows, 1)
        })
        .collect()
}
