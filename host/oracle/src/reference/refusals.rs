//! The refusals in the order of document 01, and of document 02 for sheets.

use super::{MAX_LIMIT, MAX_ROWS, MAX_SECRET};
use crate::Outcome;

/// The first refusal whose condition holds.
pub(super) fn split_refusal(
    threshold: usize,
    limit: usize,
    secret: usize,
    ids: &[u8],
    coefficients: usize,
    room: usize,
) -> Option<Outcome> {
    let refused = |number| Some(Outcome::refused(number));
    if limit > MAX_LIMIT {
        return refused(1);
    }
    if secret == 0 {
        return refused(2);
    }
    if limit < threshold {
        return refused(3);
    }
    if threshold < 2 {
        return refused(4);
    }
    for place in 0..limit {
        match ids.get(place) {
            None => return refused(5),
            Some(0) => return Some(Outcome::refused_at(6, place, 0)),
            Some(_) => {}
        }
    }
    if secret > MAX_SECRET {
        return refused(10);
    }
    if coefficients != secret * (threshold - 1) {
        return refused(11);
    }
    if room < limit * (secret + 1) {
        return refused(12);
    }
    None
}

/// Lengths that crossed the C interface, four bytes a row, least first; 13 where they could not.
pub(super) fn lengths_from_bytes(bytes: &[u8]) -> Result<Vec<u32>, Outcome> {
    let (whole, rest) = bytes.as_chunks::<4>();
    if !rest.is_empty() || whole.len() > MAX_ROWS {
        return Err(Outcome::refused(13));
    }
    Ok(whole.iter().map(|four| u32::from_le_bytes(*four)).collect())
}

/// The first refusal of a set of rows whose condition holds, up to 10. So many rows are enough.
pub(super) fn rows_refusal(rows: &[u8], lengths: &[u32], enough: usize) -> Option<Outcome> {
    let refused = |number| Some(Outcome::refused(number));
    let sum: u128 = lengths.iter().map(|&length| u128::from(length)).sum();
    if sum != rows.len() as u128 {
        return refused(13);
    }
    if lengths.len() < enough {
        return refused(4);
    }
    let width = lengths[0] as usize;
    if width < 2 {
        return refused(8);
    }
    if lengths.iter().any(|&length| length as usize != width) {
        return refused(8);
    }
    let ids: Vec<u8> = rows.chunks_exact(width).map(|row| row[0]).collect();
    if let Some(place) = ids.iter().position(|&id| id == 0) {
        return Some(Outcome::refused_at(6, place, 0));
    }
    if let Some((first, second)) = first_repeat(&ids) {
        return Some(Outcome::refused_at(7, first, second));
    }
    if width - 1 > MAX_SECRET {
        return refused(10);
    }
    None
}

/// The refusals of a sheet's threshold.
pub(super) fn threshold_refusal(threshold: usize) -> Option<Outcome> {
    match threshold {
        0 | 1 => Some(Outcome::refused(4)),
        2..=MAX_LIMIT => None,
        _ => Some(Outcome::refused(1)),
    }
}

/// Lays rows down in order. The second place is that of the first row whose identifier is on the
/// table already; the first place is where it lies there.
fn first_repeat(ids: &[u8]) -> Option<(usize, usize)> {
    (0..ids.len()).find_map(|second| {
        let (table, row) = (&ids[..second], ids[second]);
        let first = table.iter().position(|&laid| laid == row)?;
        Some((first, second))
    })
}
