//! Calls as values: what is lent, and how much room the output has.

use std::fmt;

use crate::{Outcome, Sharing, reference};

#[derive(Clone, Debug, PartialEq, Eq)]
pub struct SplitCall {
    pub threshold: usize,
    pub limit: usize,
    pub secret: Vec<u8>,
    pub ids: Vec<u8>,
    pub coefficients: Vec<u8>,
    /// Length of the output that is lent.
    pub room: usize,
}

impl SplitCall {
    /// The count of coefficients that the call should lend: L(t - 1).
    pub fn coefficients_needed(&self) -> usize {
        self.secret
            .len()
            .saturating_mul(self.threshold.saturating_sub(1))
    }

    /// The count of bytes that an accepted call writes: n(L + 1).
    pub fn bytes_written(&self) -> usize {
        self.limit.saturating_mul(self.secret.len() + 1)
    }

    /// The call made of a library, with an output of any length.
    pub fn made_of(&self, sharing: &dyn Sharing, out: &mut [u8]) -> Outcome {
        sharing.split(
            self.threshold,
            self.limit,
            &self.secret,
            &self.ids,
            &self.coefficients,
            out,
        )
    }
}

#[derive(Clone, Debug, PartialEq, Eq)]
pub struct CombineCall {
    /// Rows one after another.
    pub rows: Vec<u8>,
    pub lengths: Vec<u32>,
    /// Length of the output that is lent.
    pub room: usize,
}

impl CombineCall {
    /// Rows laid one after another, with their lengths.
    pub fn of_rows(rows: &[Vec<u8>], room: usize) -> Self {
        CombineCall {
            rows: rows.concat(),
            lengths: rows.iter().map(|row| row.len() as u32).collect(),
            room,
        }
    }

    /// The rows apart, where the lengths sum to the storage.
    pub fn rows_apart(&self) -> Option<Vec<Vec<u8>>> {
        let mut rest = self.rows.as_slice();
        let mut rows = Vec::with_capacity(self.lengths.len());
        for &length in &self.lengths {
            let (row, after) = rest.split_at_checked(length as usize)?;
            rows.push(row.to_vec());
            rest = after;
        }
        rest.is_empty().then_some(rows)
    }

    /// The lengths as they cross the C interface: four bytes a row, least first.
    pub fn lengths_as_bytes(&self) -> Vec<u8> {
        as_bytes(&self.lengths)
    }
}

fn as_bytes(lengths: &[u32]) -> Vec<u8> {
    let bytes = lengths.iter().flat_map(|length| length.to_le_bytes());
    bytes.collect()
}

/// Rows to write as a sheet.
#[derive(Clone, Debug, PartialEq, Eq)]
pub struct SheetCall {
    pub threshold: usize,
    /// Rows one after another.
    pub rows: Vec<u8>,
    /// As they cross the C interface: four bytes a row, least first, where they are whole.
    pub lengths: Vec<u8>,
    /// Length of the output that is lent.
    pub room: usize,
}

impl SheetCall {
    /// Rows laid one after another, with exactly the room that their sheet takes; none where it is
    /// refused.
    pub fn of_rows(threshold: usize, rows: &[Vec<u8>]) -> Self {
        let lengths: Vec<u32> = rows.iter().map(|row| row.len() as u32).collect();
        Self::of_storage(threshold, rows.concat(), &lengths)
    }

    /// As `of_rows`, with lengths that may be others than the rows'.
    pub fn of_storage(threshold: usize, rows: Vec<u8>, lengths: &[u32]) -> Self {
        let lengths = as_bytes(lengths);
        let text = reference::sheet_text(threshold, &rows, &lengths);
        SheetCall {
            threshold,
            room: text.map_or(0, |text| text.len()),
            rows,
            lengths,
        }
    }
}

/// A text to read as a sheet.
#[derive(Clone, Debug, PartialEq, Eq)]
pub struct ReadCall {
    pub text: Vec<u8>,
    /// Length of the output that is lent for the numbers of the first line.
    pub head: usize,
    /// Length of the output that is lent for the rows.
    pub room: usize,
}

impl ReadCall {
    /// With room enough for every sheet of that length, and not much more: two characters for each
    /// byte of a row, and those around them.
    pub fn of_text(text: Vec<u8>) -> Self {
        ReadCall {
            head: 12,
            room: text.len() / 2,
            text,
        }
    }
}

/// At most this many bytes of a buffer are shown in a message.
const SHOWN: usize = 24;

struct Hex<'a>(&'a [u8]);

impl fmt::Display for Hex<'_> {
    fn fmt(&self, f: &mut fmt::Formatter<'_>) -> fmt::Result {
        for byte in self.0.iter().take(SHOWN) {
            write!(f, "{byte:02x}")?;
        }
        if self.0.len() > SHOWN {
            write!(f, ".. ({} bytes)", self.0.len())?;
        }
        Ok(())
    }
}

impl fmt::Display for SplitCall {
    fn fmt(&self, f: &mut fmt::Formatter<'_>) -> fmt::Result {
        write!(
            f,
            "split t {} n {} secret [{}] ids [{}] coefficients [{}] room {}",
            self.threshold,
            self.limit,
            Hex(&self.secret),
            Hex(&self.ids),
            Hex(&self.coefficients),
            self.room
        )
    }
}

impl fmt::Display for CombineCall {
    fn fmt(&self, f: &mut fmt::Formatter<'_>) -> fmt::Result {
        let shown = &self.lengths[..self.lengths.len().min(SHOWN)];
        write!(
            f,
            "combine rows [{}] lengths {shown:?} of {} room {}",
            Hex(&self.rows),
            self.lengths.len(),
            self.room
        )
    }
}

impl fmt::Display for SheetCall {
    fn fmt(&self, f: &mut fmt::Formatter<'_>) -> fmt::Result {
        write!(
            f,
            "sheet t {} rows [{}] lengths [{}] room {}",
            self.threshold,
            Hex(&self.rows),
            Hex(&self.lengths),
            self.room
        )
    }
}

impl fmt::Display for ReadCall {
    fn fmt(&self, f: &mut fmt::Formatter<'_>) -> fmt::Result {
        let shown = &self.text[..self.text.len().min(4 * SHOWN)];
        write!(
            f,
            "read \"{}\" of {} head {} room {}",
            shown.escape_ascii(),
            self.text.len(),
            self.head,
            self.room
        )
    }
}
