//! Split and combine, on lent slices and owned.

use std::fmt;

use crate::crossing::{count_within, laid_flat, length_bytes, lengths_of, values_of};
use crate::{entry, Refusal, Secret, MAX_SECRET, MAX_SHARES};

/// Splits `secret` into `limit` rows, written one after another from the start of `out`: each its
/// identifier, then one value for each secret byte. Returns the count of bytes written.
///
/// Only the first `limit` identifiers are read. Secret byte `i` uses the coefficients from place
/// `i * (threshold - 1)` on, lowest degree first; see [`coefficients_needed`]. They must be fresh
/// random bytes, zeros among them, and be used for one split only.
///
/// ```
/// let mut out = [0xee; 7];
/// let written = vsss::split_into(2, 3, &[0x2a], &[1, 2, 3], &[0x05], &mut out)?;
/// assert_eq!(written, 6);
/// assert_eq!(out, [1, 0x2f, 2, 0x20, 3, 0x25, 0xee]);
/// # Ok::<(), vsss::Refusal>(())
/// ```
pub fn split_into(
    threshold: usize,
    limit: usize,
    secret: &[u8],
    ids: &[u8],
    coefficients: &[u8],
    out: &mut [u8],
) -> Result<usize, Refusal> {
    let word = entry::split_bytes(threshold, limit, secret, ids, coefficients, out);
    count_within(word, out.len())
}

/// Combines the rows that lie one after another in `rows`, of the given lengths, and writes the
/// secret from the start of `out`. Returns the count of bytes written.
///
/// Every row is used. The threshold is not known here: too few rows succeed with a wrong secret.
///
/// ```
/// let mut out = [0xee; 2];
/// let written = vsss::combine_into(&[1, 0x2f, 2, 0x20], &[2, 2], &mut out)?;
/// assert_eq!(written, 1);
/// assert_eq!(out, [0x2a, 0xee]);
/// # Ok::<(), vsss::Refusal>(())
/// ```
pub fn combine_into(rows: &[u8], lengths: &[u32], out: &mut [u8]) -> Result<usize, Refusal> {
    let word = entry::combine_bytes(rows, &length_bytes(lengths), out);
    count_within(word, out.len())
}

/// How many coefficients a split takes: the secret's bytes times the threshold less 1.
///
/// ```
/// assert_eq!(vsss::coefficients_needed(3, 32), 64);
/// ```
pub fn coefficients_needed(threshold: usize, secret_len: usize) -> usize {
    secret_len.saturating_mul(threshold.saturating_sub(1))
}

/// One holder's part of a secret: an identifier, then one value for each secret byte. Wiped when
/// dropped.
pub struct Row {
    bytes: Secret,
}

impl Row {
    /// Rows of so many bytes each, which lie one after another.
    pub(crate) fn each_of(flat: &[u8], row_len: usize) -> Vec<Row> {
        let rows = flat.chunks_exact(row_len).map(Secret::copy_of);
        rows.map(|bytes| Row { bytes }).collect()
    }

    /// The identifier, 1 to 255.
    pub fn identifier(&self) -> u8 {
        self.bytes[0]
    }

    /// One value for each secret byte.
    pub fn values(&self) -> &[u8] {
        &self.bytes[1..]
    }

    /// Identifier and values, as they are stored and given to [`combine`].
    pub fn as_bytes(&self) -> &[u8] {
        &self.bytes
    }
}

impl AsRef<[u8]> for Row {
    fn as_ref(&self) -> &[u8] {
        self.as_bytes()
    }
}

/// Shows the identifier and the length alone.
impl fmt::Debug for Row {
    fn fmt(&self, f: &mut fmt::Formatter<'_>) -> fmt::Result {
        write!(
            f,
            "Row({}, {} values)",
            self.identifier(),
            self.values().len()
        )
    }
}

/// Splits `secret` into one [`Row`] for each identifier. See [`split_into`] for the coefficients.
///
/// ```
/// let rows = vsss::split(3, &[1, 2, 3], &[0x2a], &[0x05, 0x07])?;
/// assert_eq!(rows[1].identifier(), 2);
/// assert_eq!(rows[1].values(), [0x3c]);
/// # Ok::<(), vsss::Refusal>(())
/// ```
pub fn split(
    threshold: usize,
    ids: &[u8],
    secret: &[u8],
    coefficients: &[u8],
) -> Result<Vec<Row>, Refusal> {
    // Enough for every split that is accepted, and little for one that is not.
    let row_len = secret.len().min(MAX_SECRET) + 1;
    let mut flat = Secret::zeroed(ids.len().min(MAX_SHARES) * row_len);
    let written = split_into(threshold, ids.len(), secret, ids, coefficients, &mut flat)?;
    Ok(Row::each_of(&flat[..written], row_len))
}

/// Combines rows, each an identifier and its values, into the secret.
///
/// Every row is used. **The threshold is not known here: too few rows succeed with a wrong
/// secret.**
///
/// ```
/// let secret = vsss::combine(&[[0x01, 0x2f], [0x02, 0x20]])?;
/// assert_eq!(secret[..], [0x2a]);
/// # Ok::<(), vsss::Refusal>(())
/// ```
pub fn combine<R: AsRef<[u8]>>(rows: &[R]) -> Result<Secret, Refusal> {
    let rows: Vec<&[u8]> = rows.iter().map(AsRef::as_ref).collect();
    let lengths = lengths_of(&rows)?;
    let flat = laid_flat(&rows);
    // Enough for every combine that is accepted, and little for one that is not.
    let mut secret = Secret::zeroed(values_of(&rows).min(MAX_SECRET));
    let written = combine_into(&flat, &lengths, &mut secret)?;
    if written != secret.len() {
        return Err(Refusal::UnknownWord(written as u64));
    }
    Ok(secret)
}

#[cfg(test)]
mod tests {
    use super::*;

    #[test]
    fn coefficients_are_counted_without_overflow() {
        assert_eq!(coefficients_needed(0, 5), 0);
        assert_eq!(coefficients_needed(1, 5), 0);
        assert_eq!(
            coefficients_needed(MAX_SHARES, MAX_SECRET),
            (MAX_SHARES - 1) * MAX_SECRET
        );
        assert_eq!(coefficients_needed(usize::MAX, usize::MAX), usize::MAX);
    }

    #[test]
    fn printing_a_row_shows_no_value() {
        let row = Row {
            bytes: Secret::copy_of(&[7, 1, 2]),
        };
        assert_eq!(format!("{row:?}"), "Row(7, 2 values)");
    }
}
