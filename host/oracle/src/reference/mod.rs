//! A plain reading of document 01, written from its text and not from the original: sums where the
//! original has Horner, Neville's scheme where it has Lagrange coefficients, a search for inverses.
//! And one of document 02's sheets: what is written, and which texts can still become it. It favours
//! being read over being fast, and it is not constant time.

mod continuations;
mod field;
mod reading;
mod refusals;
mod sheet;
mod values;

pub use continuations::{Continuations, Found};
pub use field::{inverse, power, product, quotient};
pub use reading::{read_sheet, sheet_of};
pub use sheet::{sheet_text, write_sheet};
pub use values::{lagrange_coefficients, row_value, values_at_zero};

use crate::Outcome;
use refusals::{lengths_from_bytes, rows_refusal, split_refusal};

/// The longest secret that is accepted.
pub const MAX_SECRET: usize = 65_536;
/// The most rows that a split makes.
pub const MAX_LIMIT: usize = 255;
/// The most rows that cross the C interface.
pub const MAX_ROWS: usize = 65_535;

/// a + b if below the field size, else 0; 0 for sizes above 256.
pub fn field_bounded_add(a: u8, b: u8, field_size: u16) -> u8 {
    let sum = u16::from(a) + u16::from(b);
    if field_size <= 256 && sum < field_size {
        sum as u8
    } else {
        0
    }
}

/// bits mod modulus, plus 1, for a modulus from 1 to 255; 0 for another.
pub fn uniform_nonzero_u8(bits: u32, modulus: u32) -> u8 {
    match modulus {
        1..=255 => (bits % modulus) as u8 + 1,
        _ => 0,
    }
}

/// Document 01's split over flat, lent storage.
pub fn split(
    threshold: usize,
    limit: usize,
    secret: &[u8],
    ids: &[u8],
    coefficients: &[u8],
    out: &mut [u8],
) -> Outcome {
    let refusal = split_refusal(
        threshold,
        limit,
        secret.len(),
        ids,
        coefficients.len(),
        out.len(),
    );
    if let Some(refused) = refusal {
        return refused;
    }
    let width = secret.len() + 1;
    for (row, &id) in out.chunks_exact_mut(width).zip(&ids[..limit]) {
        row[0] = id;
        let polynomials = secret.iter().zip(coefficients.chunks_exact(threshold - 1));
        for (value, (&byte, above)) in row[1..].iter_mut().zip(polynomials) {
            *value = row_value(byte, above, id);
        }
    }
    Outcome::Done(limit * width)
}

/// Document 01's combine over flat, lent storage.
pub fn combine(rows: &[u8], lengths: &[u32], out: &mut [u8]) -> Outcome {
    if let Some(refused) = rows_refusal(rows, lengths, 2) {
        return refused;
    }
    let width = lengths[0] as usize;
    if out.len() < width - 1 {
        return Outcome::refused(12);
    }
    let points: Vec<(u8, &[u8])> = rows
        .chunks_exact(width)
        .map(|row| (row[0], &row[1..]))
        .collect();
    let secret = values_at_zero(&points);
    out[..secret.len()].copy_from_slice(&secret);
    Outcome::Done(secret.len())
}

/// Combine with lengths as they cross the C interface: four bytes a row, least first.
pub fn combine_length_bytes(rows: &[u8], lengths: &[u8], out: &mut [u8]) -> Outcome {
    match lengths_from_bytes(lengths) {
        Ok(lengths) => combine(rows, &lengths, out),
        Err(refused) => refused,
    }
}
