//! Rows read back from text: on lent slices and owned.

use crate::crossing::count_within;
use crate::{entry, Refusal, Row, Secret, MAX_SECRET, MAX_SHARES};

/// What the first line of a sheet says.
#[derive(Clone, Copy, Debug, PartialEq, Eq)]
pub struct SheetHead {
    /// How many rows of the split give its secret back, 2 to 255.
    pub threshold: usize,
    /// How many rows the sheet has, 1 to 255. They may be fewer than the threshold.
    pub rows: usize,
    /// How many values each of them has: as many as the secret has bytes.
    pub values: usize,
}

impl SheetHead {
    /// As it comes from the library: three numbers of four bytes, least first.
    fn from_bytes(bytes: [u8; 12]) -> SheetHead {
        let number = |place: usize| {
            let four = bytes[place..place + 4].iter().rev();
            four.fold(0, |number, &byte| number << 8 | usize::from(byte))
        };
        SheetHead {
            threshold: number(0),
            rows: number(4),
            values: number(8),
        }
    }

    /// How many bytes its rows take. The library is for processors of 64 bits, where this cannot
    /// overflow.
    fn rows_len(&self) -> usize {
        self.rows * (self.values + 1)
    }
}

/// Reads a sheet and writes its rows one after another from the start of `out`: each its
/// identifier, then its values. Returns what the first line says, and so how many bytes were
/// written: the rows times their values plus 1. [`rows_room`] bytes are always enough.
///
/// What is no sheet is refused as [`read_sheet`] says.
///
/// ```
/// let mut out = [0xee; 3];
/// let head = vsss::read_sheet_into(b"seal\t2\t1\t1\nrow\t3\t25\n", &mut out)?;
/// assert_eq!((head.threshold, head.rows, head.values), (2, 1, 1));
/// assert_eq!(out, [3, 0x25, 0xee]);
/// # Ok::<(), vsss::Refusal>(())
/// ```
pub fn read_sheet_into(text: &[u8], out: &mut [u8]) -> Result<SheetHead, Refusal> {
    let mut head = [0; 12];
    let word = entry::read_sheet(text, &mut head, out);
    let written = count_within(word, out.len())?;
    let head = SheetHead::from_bytes(head);
    if head.rows_len() != written {
        return Err(Refusal::UnknownWord(word));
    }
    Ok(head)
}

/// A sheet that was read. Its rows are wiped when dropped.
#[derive(Debug)]
pub struct Sheet {
    /// How many rows of the split give its secret back, as the sheet says.
    pub threshold: usize,
    /// The rows in the order of the sheet: one at least, and perhaps fewer than the threshold.
    pub rows: Vec<Row>,
}

/// Reads a sheet: exactly the texts that [`sheet`](crate::sheet) gives are read, each as the
/// threshold and the rows that it was made from.
///
/// Any other text is refused by [`Refusal::InvalidSheet`] with a line, counted from 0: the first with
/// which the text can no longer be continued to a sheet. Where every complete line can, and the last
/// line feed or a row is missing, it is the line behind them.
///
/// One jump a row tells whether all its digits are hex. No other jump, and no address, depends on a
/// value.
///
/// ```
/// use vsss::Refusal;
/// let sheet = vsss::read_sheet(b"seal\t2\t2\t1\nrow\t1\t2f\nrow\t3\t25\n")?;
/// assert_eq!(sheet.threshold, 2);
/// assert_eq!(sheet.rows[1].identifier(), 3);
/// assert_eq!(vsss::combine(&sheet.rows)?[..], [0x2a]);
///
/// let cut = vsss::read_sheet(b"seal\t2\t2\t1\nrow\t1\t2f\n");
/// assert_eq!(cut.unwrap_err(), Refusal::InvalidSheet { line: 2 });
/// # Ok::<(), vsss::Refusal>(())
/// ```
pub fn read_sheet(text: &[u8]) -> Result<Sheet, Refusal> {
    let mut flat = Secret::zeroed(rows_room(text.len()));
    let head = read_sheet_into(text, &mut flat)?;
    Ok(Sheet {
        threshold: head.threshold,
        rows: Row::each_of(&flat[..head.rows_len()], head.values + 1),
    })
}

/// How many bytes are enough for the rows of every sheet of so many bytes: a line has two for each
/// byte of its row, and no sheet has more rows or values than the largest.
///
/// ```
/// assert_eq!(vsss::rows_room(20), 10);
/// ```
pub const fn rows_room(text_len: usize) -> usize {
    let largest = MAX_SHARES * (MAX_SECRET + 1);
    if text_len / 2 < largest {
        text_len / 2
    } else {
        largest
    }
}

#[cfg(test)]
mod tests {
    use super::*;
    use crate::sheet_room;

    #[test]
    fn numbers_of_a_head_are_read_least_byte_first() {
        let bytes = [2, 0, 0, 0, 255, 0, 0, 0, 1, 2, 3, 4];
        let head = SheetHead::from_bytes(bytes);
        assert_eq!(
            (head.threshold, head.rows, head.values),
            (2, 255, 0x0403_0201)
        );
        let most = u32::MAX as usize;
        assert_eq!(
            SheetHead::from_bytes([255; 12]).rows_len(),
            most * (most + 1)
        );
    }

    #[test]
    fn there_is_room_for_the_rows_of_every_sheet() {
        // A sheet with numbers of one digit leaves the least to spare.
        for values in 1..=9 {
            for rows in 1..=9 {
                let text = "seal\t2\t1\t1\n".len() + rows * ("row\t1\t\n".len() + 2 * values);
                assert!(rows * (values + 1) <= rows_room(text));
            }
        }
        let largest = MAX_SHARES * (MAX_SECRET + 1);
        assert_eq!(rows_room(sheet_room(MAX_SHARES, MAX_SECRET)), largest);
        assert_eq!(rows_room(usize::MAX), largest);
    }
}
