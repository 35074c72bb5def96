//! A stored sample of the original's answers, and its replay where the text is not at hand; and a
//! stored sample of sheets, which are the plain reading's.
//!
//! The sample is text files, one call a line. Lines that begin with `#` are comments. Fields
//! are hexadecimal and separated by one space; `-` is an empty field; a list of numbers is
//! separated by commas.
//!
//! | file | fields |
//! |---|---|
//! | `split.txt` | threshold, limit, secret, identifiers, coefficients, number, rows |
//! | `combine.txt` | lengths, rows, number, secret |
//! | `sheet.txt` | threshold, lengths, rows, number, first place, second place, text |
//!
//! The number is 0 for done, else the refusal; the original has no places. The last field is what a
//! done call writes, and is empty for a refused one. Rows lie one after another.
//!
//! A done call is lent as much room as it writes, or more. A refused sheet is lent less than any
//! sheet takes, which is 20 bytes: so that there can be refusals 12.

use crate::{CombineCall, Outcome, SheetCall, SplitCall};
use std::fmt::Write;

pub const SPLIT: &str = include_str!("../sample/split.txt");
pub const COMBINE: &str = include_str!("../sample/combine.txt");
pub const SHEET: &str = include_str!("../sample/sheet.txt");

/// What the original answered: the bytes, or the number of its refusal.
pub type Answer = Result<Vec<u8>, u32>;

/// How many calls were replayed.
#[derive(Clone, Copy, Debug, PartialEq, Eq)]
pub struct Replayed {
    pub split: usize,
    pub combine: usize,
}

/// Bytes of the lent output behind the room that a call needs: they have to keep their values.
const BEHIND: usize = 8;
const FILL: u8 = 0xa7;

/// Replays the whole sample. Closures take their arguments as [`Sharing`](crate::Sharing)'s
/// methods do.
///
/// # Errors
/// The first line whose answer or output differs.
pub fn replay(
    mut split: impl FnMut(usize, usize, &[u8], &[u8], &[u8], &mut [u8]) -> Outcome,
    mut combine: impl FnMut(&[u8], &[u32], &mut [u8]) -> Outcome,
) -> Result<Replayed, String> {
    let splits = split_records(SPLIT)?;
    for (line, (call, answer)) in &splits {
        replay_one(answer, |out| {
            split(
                call.threshold,
                call.limit,
                &call.secret,
                &call.ids,
                &call.coefficients,
                out,
            )
        })
        .map_err(|what| format!("split.txt, line {line}: {call}: {what}"))?;
    }
    let combines = combine_records(COMBINE)?;
    for (line, (call, answer)) in &combines {
        replay_one(answer, |out| combine(&call.rows, &call.lengths, out))
            .map_err(|what| format!("combine.txt, line {line}: {call}: {what}"))?;
    }
    Ok(Replayed {
        split: splits.len(),
        combine: combines.len(),
    })
}

fn replay_one(answer: &Answer, run: impl FnOnce(&mut [u8]) -> Outcome) -> Result<(), String> {
    let written = answer.as_deref().unwrap_or_default();
    let mut out = vec![FILL; written.len() + BEHIND];
    let outcome = run(&mut out);
    let agrees = match (answer, outcome) {
        (Ok(bytes), Outcome::Done(count)) => bytes.len() == count,
        (Err(refused), Outcome::Refused { number, .. }) => *refused == number,
        _ => false,
    };
    if !agrees {
        let expected = answer.as_ref().map(Vec::len);
        return Err(format!("answered {outcome}, the original {expected:?}"));
    }
    check_output(&out, written)
}

/// Whether the output has these bytes, and behind them what it was lent with.
fn check_output(out: &[u8], written: &[u8]) -> Result<(), String> {
    let (start, rest) = out.split_at(written.len());
    if start != written {
        return Err("the bytes differ from the stored ones".into());
    }
    if rest.iter().any(|&byte| byte != FILL) {
        return Err("a byte behind those written changed".into());
    }
    Ok(())
}

/// Replays the stored sheets, and gives their count. The writer takes threshold, rows, lengths and
/// output as the C entry does, and gives its word.
///
/// # Errors
/// The first line whose answer or output differs.
pub fn replay_sheets(
    mut write: impl FnMut(usize, &[u8], &[u8], &mut [u8]) -> u64,
) -> Result<usize, String> {
    let sheets = sheet_records(SHEET)?;
    for (line, (call, answer)) in &sheets {
        let mut out = vec![FILL; answer.text.len() + BEHIND];
        let word = write(call.threshold, &call.rows, &call.lengths, &mut out);
        let answered = if word == answer.outcome.to_word() {
            check_output(&out, &answer.text)
        } else {
            let (found, stored) = (Outcome::from_word(word), answer.outcome);
            Err(format!("answered {found}, stored is {stored}"))
        };
        answered.map_err(|what| format!("sheet.txt, line {line}: {call}: {what}"))?;
    }
    Ok(sheets.len())
}

/// A record with its line number, counted from 1.
type Numbered<T> = Vec<(usize, T)>;

/// The calls of `split.txt` with the original's answers. Each has exactly the room it needs.
///
/// # Errors
/// The first line that is not of the format.
pub fn split_records(text: &str) -> Result<Numbered<(SplitCall, Answer)>, String> {
    records(text, |fields| {
        let &[threshold, limit, secret, ids, coefficients, number, rows] = fields else {
            return None;
        };
        let answer = answer(number, rows)?;
        let call = SplitCall {
            threshold: usize::from_str_radix(threshold, 16).ok()?,
            limit: usize::from_str_radix(limit, 16).ok()?,
            secret: bytes(secret)?,
            ids: bytes(ids)?,
            coefficients: bytes(coefficients)?,
            room: answer.as_deref().map_or(0, <[u8]>::len),
        };
        Some((call, answer))
    })
}

/// The calls of `combine.txt` with the original's answers. Each has exactly the room it needs.
///
/// # Errors
/// The first line that is not of the format.
pub fn combine_records(text: &str) -> Result<Numbered<(CombineCall, Answer)>, String> {
    records(text, |fields| {
        let &[lengths, rows, number, secret] = fields else {
            return None;
        };
        let answer = answer(number, secret)?;
        let call = CombineCall {
            rows: bytes(rows)?,
            lengths: numbers(lengths)?,
            room: answer.as_deref().map_or(0, <[u8]>::len),
        };
        Some((call, answer))
    })
}

/// What a writer of sheets answers, and the text that it writes; none where it refuses.
#[derive(Clone, Debug, PartialEq, Eq)]
pub struct SheetAnswer {
    pub outcome: Outcome,
    pub text: Vec<u8>,
}

/// The calls of `sheet.txt` with their answers. Each has exactly the room it needs, and a refused
/// one none.
///
/// # Errors
/// The first line that is not of the format.
pub fn sheet_records(text: &str) -> Result<Numbered<(SheetCall, SheetAnswer)>, String> {
    records(text, |fields| {
        let &[threshold, lengths, rows, number, first, second, text] = fields else {
            return None;
        };
        let answer = sheet_answer([number, first, second], text)?;
        let threshold = usize::from_str_radix(threshold, 16).ok()?;
        let call = SheetCall {
            room: answer.text.len(),
            ..SheetCall::of_storage(threshold, bytes(rows)?, &numbers(lengths)?)
        };
        Some((call, answer))
    })
}

fn sheet_answer(fields: [&str; 3], text: &str) -> Option<SheetAnswer> {
    let text = bytes(text)?;
    let [number, first, second] = fields.map(|field| usize::from_str_radix(field, 16).ok());
    let outcome = match (number?, first?, second?) {
        (0, 0, 0) => Outcome::Done(text.len()),
        (0, ..) => return None,
        (number, first, second) => {
            let number = u8::try_from(number).ok()?;
            Outcome::refused_at(number.into(), first, second)
        }
    };
    let is_done = outcome.number() == 0;
    (is_done != text.is_empty()).then_some(SheetAnswer { outcome, text })
}

fn records<T>(text: &str, read: fn(&[&str]) -> Option<T>) -> Result<Numbered<T>, String> {
    text.lines()
        .enumerate()
        .filter(|(_, line)| !line.starts_with('#'))
        .map(|(place, line)| {
            let fields: Vec<&str> = line.split(' ').collect();
            let record = read(&fields).ok_or(format!("line {} is not a record", place + 1))?;
            Ok((place + 1, record))
        })
        .collect()
}

fn answer(number: &str, field: &str) -> Option<Answer> {
    match u8::from_str_radix(number, 16).ok()? {
        0 => Some(Ok(bytes(field)?)),
        number => (field == "-").then_some(Err(number.into())),
    }
}

fn bytes(field: &str) -> Option<Vec<u8>> {
    if field == "-" {
        return Some(Vec::new());
    }
    let (pairs, rest) = field.as_bytes().as_chunks::<2>();
    if !rest.is_empty() || pairs.is_empty() {
        return None;
    }
    pairs
        .iter()
        .map(|pair| u8::from_str_radix(str::from_utf8(pair).ok()?, 16).ok())
        .collect()
}

fn numbers(field: &str) -> Option<Vec<u32>> {
    if field == "-" {
        return Some(Vec::new());
    }
    field
        .split(',')
        .map(|number| u32::from_str_radix(number, 16).ok())
        .collect()
}

/// One line of `split.txt`, without its end.
pub fn split_line(call: &SplitCall, answer: &Answer) -> String {
    format!(
        "{:x} {:x} {} {} {} {}",
        call.threshold,
        call.limit,
        hex(&call.secret),
        hex(&call.ids),
        hex(&call.coefficients),
        answer_fields(answer)
    )
}

/// One line of `combine.txt`, without its end.
pub fn combine_line(call: &CombineCall, answer: &Answer) -> String {
    format!(
        "{} {} {}",
        list(&call.lengths),
        hex(&call.rows),
        answer_fields(answer)
    )
}

/// One line of `sheet.txt`, without its end.
///
/// # Panics
/// Where the lengths are no list of numbers.
pub fn sheet_line(call: &SheetCall, answer: &SheetAnswer) -> String {
    let (lengths, rest) = call.lengths.as_chunks::<4>();
    assert!(rest.is_empty(), "the lengths are no list of numbers");
    let lengths: Vec<u32> = lengths.iter().copied().map(u32::from_le_bytes).collect();
    let (first, second) = match answer.outcome {
        Outcome::Done(_) => (0, 0),
        Outcome::Refused { first, second, .. } => (first, second),
    };
    format!(
        "{:x} {} {} {:x} {first:x} {second:x} {}",
        call.threshold,
        list(&lengths),
        hex(&call.rows),
        answer.outcome.number(),
        hex(&answer.text)
    )
}

fn list(numbers: &[u32]) -> String {
    if numbers.is_empty() {
        return "-".into();
    }
    let numbers: Vec<String> = numbers.iter().map(|n| format!("{n:x}")).collect();
    numbers.join(",")
}

fn answer_fields(answer: &Answer) -> String {
    match answer {
        Ok(bytes) => format!("0 {}", hex(bytes)),
        Err(number) => format!("{number:x} -"),
    }
}

fn hex(bytes: &[u8]) -> String {
    if bytes.is_empty() {
        return "-".into();
    }
    bytes.iter().fold(String::new(), |mut text, byte| {
        write!(text, "{byte:02x}").expect("a string takes every write");
        text
    })
}
