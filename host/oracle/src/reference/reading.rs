//! Document 02's reader, by its own sentence: a text that is no sheet is refused at the first line
//! at which what was read so far can no longer be continued to one.

use super::continuations::{Continuations, Found};
use super::sheet::sheet_text;
use crate::Outcome;

/// The bytes that the numbers of the first line take.
const HEAD: usize = 12;

/// Document 02's reader over lent storage: the rows go to `out`, and threshold, count of rows and of
/// values to `head`, four bytes each, least first.
pub fn read_sheet(text: &[u8], head: &mut [u8], out: &mut [u8]) -> Outcome {
    let sheet = match sheet_of(text) {
        Ok(sheet) => sheet,
        Err(line) => return Outcome::refused_at(14, line, 0),
    };
    let numbers = [sheet.threshold, sheet.count, sheet.length];
    let numbers = numbers.map(|number| (number as u32).to_le_bytes()).concat();
    let rows = sheet.rows.concat();
    if head.len() < HEAD || out.len() < rows.len() {
        return Outcome::refused(12);
    }
    head[..HEAD].copy_from_slice(&numbers);
    out[..rows.len()].copy_from_slice(&rows);
    Outcome::Done(rows.len())
}

/// What the text is the sheet of.
///
/// # Errors
/// The line at which it is none. A line counts when it is complete; what stands behind the last
/// complete one, or should, counts as the line after it.
///
/// # Panics
/// Where the plain writer would write another text for what was found.
pub fn sheet_of(text: &[u8]) -> Result<Found, usize> {
    let mut so_far = Continuations::of_nothing();
    let mut complete = 0;
    for line in text.split_inclusive(|&c| c == b'\n') {
        if !line.ends_with(b"\n") {
            return Err(complete);
        }
        so_far = so_far.after_all(line).ok_or(complete)?;
        complete += 1;
    }
    let sheet = so_far.sheet().ok_or(complete)?;
    assert!(written(&sheet) == text, "the sheet is written otherwise");
    Ok(sheet)
}

fn written(sheet: &Found) -> Vec<u8> {
    let lengths = vec![(sheet.length as u32 + 1).to_le_bytes(); sheet.count];
    let text = sheet_text(sheet.threshold, &sheet.rows.concat(), &lengths.concat());
    text.expect("these rows make a sheet").into_bytes()
}
