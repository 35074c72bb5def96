//! Document 02's sheets: rows as lines of text.

use super::refusals::{lengths_from_bytes, rows_refusal, threshold_refusal};
use crate::Outcome;
use std::fmt::Write;

/// Document 02's writer over flat, lent storage, with lengths as they cross the C interface.
pub fn write_sheet(threshold: usize, rows: &[u8], lengths: &[u8], out: &mut [u8]) -> Outcome {
    let text = match sheet_text(threshold, rows, lengths) {
        Ok(text) => text,
        Err(refused) => return refused,
    };
    let Some(place) = out.get_mut(..text.len()) else {
        return Outcome::refused(12);
    };
    place.copy_from_slice(text.as_bytes());
    Outcome::Done(text.len())
}

/// The text of the sheet, were there room for it.
///
/// # Errors
/// The first refusal whose condition holds; never 12.
pub fn sheet_text(threshold: usize, rows: &[u8], lengths: &[u8]) -> Result<String, Outcome> {
    let lengths = lengths_from_bytes(lengths)?;
    let refusal = rows_refusal(rows, &lengths, 1).or_else(|| threshold_refusal(threshold));
    if let Some(refused) = refusal {
        return Err(refused);
    }
    let width = lengths[0] as usize;
    let mut text = format!("seal\t{threshold}\t{}\t{}\n", lengths.len(), width - 1);
    for row in rows.chunks_exact(width) {
        text += &row_line(row[0], &row[1..]);
    }
    Ok(text)
}

fn row_line(id: u8, values: &[u8]) -> String {
    let mut line = format!("row\t{id}\t");
    for value in values {
        write!(line, "{value:02x}").expect("a string takes every write");
    }
    line + "\n"
}
