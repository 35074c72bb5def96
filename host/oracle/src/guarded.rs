//! Buffers between canaries.

use crate::Random;
use std::ops::Range;

/// Cells on each side of a buffer: at least this many, and up to twice as many, so that buffers
/// start at every alignment.
const MARGIN: usize = 16;

/// A buffer to lend, with canaries on both sides and a copy of everything as it was lent.
pub struct Guarded<T> {
    cells: Vec<T>,
    before: Vec<T>,
    lent: Range<usize>,
}

impl<T: Copy + PartialEq> Guarded<T> {
    /// Lays the content between canaries made by `canary`.
    pub fn new(content: &[T], random: &mut Random, canary: fn(&mut Random) -> T) -> Self {
        let start = random.between(MARGIN, 2 * MARGIN);
        let mut cells: Vec<T> = (0..start).map(|_| canary(random)).collect();
        cells.extend_from_slice(content);
        cells.extend((0..MARGIN).map(|_| canary(random)));
        Guarded {
            before: cells.clone(),
            cells,
            lent: start..start + content.len(),
        }
    }

    pub fn lend(&self) -> &[T] {
        &self.cells[self.lent.clone()]
    }

    pub fn lend_mut(&mut self) -> &mut [T] {
        &mut self.cells[self.lent.clone()]
    }

    /// Whether every cell is as it was lent, canaries included, but for the lent content, which is
    /// as expected now.
    pub fn holds(&self, expected: &[T]) -> bool {
        let Range { start, end } = self.lent;
        self.cells[..start] == self.before[..start]
            && self.cells[start..end] == *expected
            && self.cells[end..] == self.before[end..]
    }

    /// Whether no cell has changed.
    pub fn is_untouched(&self) -> bool {
        self.cells == self.before
    }
}

#[cfg(test)]
mod tests {
    use super::*;

    fn buffer() -> Guarded<u8> {
        Guarded::new(&[1, 2, 3], &mut Random::from_seed(1), Random::byte)
    }

    #[test]
    fn lends_its_content() {
        let mut buffer = buffer();
        assert_eq!(buffer.lend(), [1, 2, 3]);
        buffer.lend_mut()[1] = 9;
        assert!(buffer.holds(&[1, 9, 3]));
        assert!(!buffer.holds(&[1, 2, 3]));
        assert!(!buffer.is_untouched());
    }

    #[test]
    fn sees_every_changed_canary() {
        for cell in 0..buffer().cells.len() {
            let mut buffer = buffer();
            buffer.cells[cell] ^= 1;
            assert!(!buffer.holds(&[1, 2, 3]), "cell {cell}");
            assert!(!buffer.is_untouched(), "cell {cell}");
        }
    }
}
