//! How rows go over to the library, and how a count comes back.

use crate::{decode, Refusal, Secret};

/// A row whose length is no 32-bit number cannot be told to the library: its lengths then do not
/// add up.
pub fn lengths_of(rows: &[&[u8]]) -> Result<Vec<u32>, Refusal> {
    let length = |row: &&[u8]| u32::try_from(row.len()).map_err(|_| Refusal::RowLengths);
    rows.iter().map(length).collect()
}

/// Four bytes for each length, least first.
pub fn length_bytes(lengths: &[u32]) -> Vec<u8> {
    lengths.iter().flat_map(|len| len.to_le_bytes()).collect()
}

/// The rows one after another. Room is made once, so that growing leaves no copy behind.
pub fn laid_flat(rows: &[&[u8]]) -> Secret {
    let mut flat = Secret::zeroed(rows.iter().map(|row| row.len()).sum());
    let mut rest: &mut [u8] = &mut flat;
    for row in rows {
        let (place, behind) = rest.split_at_mut(row.len());
        place.copy_from_slice(row);
        rest = behind;
    }
    flat
}

/// How many values the rows have, by the first of them: as many as their secret has bytes.
pub fn values_of(rows: &[&[u8]]) -> usize {
    rows.first().map_or(0, |row| row.len().saturating_sub(1))
}

/// The count in `word`. More than was lent cannot have been written, so callers may slice by it.
pub fn count_within(word: u64, lent: usize) -> Result<usize, Refusal> {
    let count = decode(word)?;
    if count > lent {
        return Err(Refusal::UnknownWord(word));
    }
    Ok(count)
}

#[cfg(test)]
mod tests {
    use super::*;

    #[test]
    fn rows_are_laid_in_order() {
        let rows: [&[u8]; 4] = [&[1, 2], &[], &[3], &[4, 5, 6]];
        assert_eq!(laid_flat(&rows)[..], [1, 2, 3, 4, 5, 6]);
        assert_eq!(lengths_of(&rows), Ok(vec![2, 0, 1, 3]));
        assert_eq!(length_bytes(&[2, 0x0102_0304]), [2, 0, 0, 0, 4, 3, 2, 1]);
    }

    #[test]
    fn values_stand_behind_the_identifier() {
        assert_eq!(values_of(&[]), 0);
        assert_eq!(values_of(&[&[], &[1, 2]]), 0);
        assert_eq!(values_of(&[&[1, 2, 3], &[2]]), 2);
    }

    #[test]
    fn a_count_beyond_what_was_lent_is_no_count() {
        assert_eq!(count_within(8, 8), Ok(8));
        assert_eq!(count_within(9, 8), Err(Refusal::UnknownWord(9)));
        assert_eq!(count_within(8 << 40, 8), Err(Refusal::InvalidShare));
    }
}
