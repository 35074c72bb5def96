//! Rows as text, for keeping on paper: on lent slices and owned.

use crate::crossing::{count_within, laid_flat, length_bytes, lengths_of, values_of};
use crate::{entry, Refusal, Secret, MAX_SECRET, MAX_SHARES};

/// Writes the rows that lie one after another in `rows`, of the given lengths, as a sheet from the
/// start of `out`. Returns the count of bytes written; [`sheet_room`] bytes are always enough.
///
/// The lines are those of [`sheet`], where it is also said what the threshold is for.
///
/// ```
/// let mut out = [b'.'; 22];
/// let written = vsss::sheet_into(2, &[3, 0x25], &[2], &mut out)?;
/// assert_eq!(written, 20);
/// assert_eq!(&out, b"seal\t2\t1\t1\nrow\t3\t25\n..");
/// # Ok::<(), vsss::Refusal>(())
/// ```
pub fn sheet_into(
    threshold: usize,
    rows: &[u8],
    lengths: &[u32],
    out: &mut [u8],
) -> Result<usize, Refusal> {
    let word = entry::write_sheet(threshold, rows, &length_bytes(lengths), out);
    count_within(word, out.len())
}

/// Writes rows as a sheet: text with a tab between two fields and a line feed behind every line.
///
/// | line | fields |
/// |---|---|
/// | first | `seal`, the threshold, the count of rows, the count of values in a row |
/// | one for each row | `row`, the identifier, the values in hex, two digits each |
///
/// One row is enough: a holder may write his own. The threshold is that of the split, from 2 to
/// 255. It is written as given, since the rows do not tell it.
///
/// **A sheet is as secret as its rows**, hence a [`Secret`]. With as many rows as the threshold it
/// gives the secret away.
///
/// ```
/// let rows = vsss::split(2, &[1, 2, 3], &[0x2a], &[0x05])?;
/// let sheet = vsss::sheet(2, &rows)?;
/// assert_eq!(&sheet[..], b"seal\t2\t3\t1\nrow\t1\t2f\nrow\t2\t20\nrow\t3\t25\n");
/// # Ok::<(), vsss::Refusal>(())
/// ```
pub fn sheet<R: AsRef<[u8]>>(threshold: usize, rows: &[R]) -> Result<Secret, Refusal> {
    let rows: Vec<&[u8]> = rows.iter().map(AsRef::as_ref).collect();
    let lengths = lengths_of(&rows)?;
    let flat = laid_flat(&rows);
    // Enough for every sheet that is accepted, and little for one that is not.
    let values = values_of(&rows).min(MAX_SECRET);
    let mut text = Secret::zeroed(sheet_room(rows.len().min(MAX_SHARES), values));
    let written = sheet_into(threshold, &flat, &lengths, &mut text)?;
    Ok(Secret::copy_of(&text[..written]))
}

/// How many bytes are enough for every sheet of so many rows, with so many values each: its length
/// if threshold, row count and identifiers had 3 digits each and the count of values as many as
/// [`MAX_SECRET`].
///
/// ```
/// assert_eq!(vsss::sheet_room(1, 32), 92);
/// assert_eq!(vsss::sheet(2, &[[7; 1 + 32]])?.len(), 83);
/// # Ok::<(), vsss::Refusal>(())
/// ```
pub const fn sheet_room(rows: usize, values: usize) -> usize {
    // It also bounds the threshold and the identifiers.
    let most_rows = digits(MAX_SHARES);
    let head = "seal\t\t\t\n".len() + 2 * most_rows + digits(MAX_SECRET);
    let row = ("row\t\t\n".len() + most_rows).saturating_add(values.saturating_mul(2));
    head.saturating_add(rows.saturating_mul(row))
}

const fn digits(number: usize) -> usize {
    match number {
        0..=9 => 1,
        _ => 1 + digits(number / 10),
    }
}

#[cfg(test)]
mod tests {
    use super::*;

    #[test]
    fn digits_are_counted() {
        for number in [0, 9, 10, 99, 100, MAX_SHARES, MAX_SECRET, usize::MAX] {
            assert_eq!(digits(number), number.to_string().len());
        }
    }

    #[test]
    fn room_is_worked_out_without_overflow() {
        let head = format!("seal\t{MAX_SHARES}\t{MAX_SHARES}\t{MAX_SECRET}\n").len();
        assert_eq!(sheet_room(0, 0), head);
        let rows = MAX_SHARES * (9 + 2 * MAX_SECRET);
        assert_eq!(sheet_room(MAX_SHARES, MAX_SECRET), head + rows);
        assert_eq!(sheet_room(usize::MAX, usize::MAX), usize::MAX);
    }
}
