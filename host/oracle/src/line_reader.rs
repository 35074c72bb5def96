//! A reader of sheets as a programmer writes it who goes through the text line by line, takes each
//! apart at its tabs, and reads digits by arithmetic. The times of ours are put beside its times;
//! nothing is judged by it.

use crate::reference::{MAX_LIMIT, MAX_SECRET};
use std::ops::RangeInclusive;

/// What the first line says.
#[derive(Clone, Copy, Debug, PartialEq, Eq)]
pub struct Head {
    pub threshold: usize,
    pub rows: usize,
    pub values: usize,
}

/// Reads a sheet, and leaves in `rows` its rows one after another.
///
/// # Errors
/// The line, counted from 0, at which the text is no sheet.
pub fn read(text: &[u8], rows: &mut Vec<u8>) -> Result<Head, usize> {
    rows.clear();
    let mut rest = text;
    let head = next_line(&mut rest).and_then(head_of).ok_or(0usize)?;
    rows.reserve(head.rows * (head.values + 1));
    let mut seen = [false; 256];
    for line in 1..=head.rows {
        let read = next_line(&mut rest).and_then(|row| read_row(row, head.values, rows));
        let id = read.ok_or(line)?;
        if std::mem::replace(&mut seen[usize::from(id)], true) {
            return Err(line);
        }
    }
    match rest {
        [] => Ok(head),
        _ => Err(head.rows + 1),
    }
}

/// The next line without its line feed, where it is complete.
fn next_line<'a>(rest: &mut &'a [u8]) -> Option<&'a [u8]> {
    let end = rest.iter().position(|&c| c == b'\n')?;
    let line = &rest[..end];
    *rest = &rest[end + 1..];
    Some(line)
}

/// The fields of a line, where there are so many; more would be in the last, where no digit is a tab.
fn fields<const COUNT: usize>(line: &[u8]) -> Option<[&[u8]; COUNT]> {
    let fields: Vec<&[u8]> = line.splitn(COUNT, |&c| c == b'\t').collect();
    fields.try_into().ok()
}

fn head_of(line: &[u8]) -> Option<Head> {
    let [b"seal", threshold, rows, values] = fields(line)? else {
        return None;
    };
    Some(Head {
        threshold: number(threshold, 2..=MAX_LIMIT)?,
        rows: number(rows, 1..=MAX_LIMIT)?,
        values: number(values, 1..=MAX_SECRET)?,
    })
}

/// Adds the row of a line; gives its identifier.
fn read_row(line: &[u8], values: usize, rows: &mut Vec<u8>) -> Option<u8> {
    let [b"row", id, digits] = fields(line)? else {
        return None;
    };
    let id = number(id, 1..=255)? as u8;
    if digits.len() != 2 * values {
        return None;
    }
    rows.push(id);
    for pair in digits.chunks_exact(2) {
        rows.push(hex(pair[0])? << 4 | hex(pair[1])?);
    }
    Some(id)
}

fn number(digits: &[u8], range: RangeInclusive<usize>) -> Option<usize> {
    if digits.starts_with(b"0") || !digits.iter().all(u8::is_ascii_digit) {
        return None;
    }
    let number = str::from_utf8(digits).ok()?.parse().ok()?;
    range.contains(&number).then_some(number)
}

fn hex(digit: u8) -> Option<u8> {
    match digit {
        b'0'..=b'9' => Some(digit - b'0'),
        b'a'..=b'f' => Some(digit - b'a' + 10),
        _ => None,
    }
}
