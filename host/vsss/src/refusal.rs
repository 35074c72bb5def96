//! Why a call was refused, and how the library's word is read.

use std::error::Error;
use std::fmt;

use crate::{MAX_SECRET, MAX_SHARES};

/// Why a call was refused. Nothing that was lent has changed then.
///
/// The cases are in the order of their numbers, 1 to 14. Places count from 0.
///
/// ```
/// use vsss::Refusal;
/// let refusal = Refusal::SharingDuplicateIdentifier { first: 0, second: 3 };
/// assert_eq!(refusal.number(), 7);
/// assert!(refusal.to_string().starts_with("rows 0 and 3 carry the same identifier"));
/// ```
#[derive(Clone, Copy, Debug, PartialEq, Eq)]
pub enum Refusal {
    /// 1: more than 255 rows asked of split, or a sheet's threshold over 255.
    InvalidSizeRequest,
    /// 2: an empty secret.
    InvalidSecret,
    /// 3: the limit is below the threshold.
    SharingLimitLessThanThreshold,
    /// 4: a threshold under 2; under 2 rows to combine, or none for a sheet.
    SharingMinThreshold,
    /// 5: fewer identifiers than rows asked for.
    NotEnoughShareIdentifiers,
    /// 6: an identifier is 0.
    SharingInvalidIdentifier {
        /// The place of the first such identifier or row.
        place: usize,
    },
    /// 7: two rows of a set carry one identifier. Split never gives it.
    SharingDuplicateIdentifier {
        /// The earlier place, with the same identifier as `second`.
        first: usize,
        /// The least place whose identifier stands at an earlier one.
        second: usize,
    },
    /// 8: the first row has under 2 bytes, or the rows differ in length.
    InvalidShare,
    /// 9: inverse of zero, or an identifier that is not one byte. No call here gives it.
    InvalidShareElement,
    /// 10: a secret over [`MAX_SECRET`] bytes.
    TooLong,
    /// 11: not exactly one coefficient for each secret byte and each degree.
    CoefficientCount,
    /// 12: the output is too short.
    NoRoom,
    /// 13: the row lengths do not sum to the stored bytes, or there are more than 65,535.
    RowLengths,
    /// 14: a text to be read is no sheet.
    InvalidSheet {
        /// The first line with which the text can no longer be continued to a sheet; where every
        /// complete line can, the one behind them.
        line: usize,
    },
    /// The library answered with a word that has no meaning: archive and wrapper do not belong
    /// together. It has no number.
    UnknownWord(u64),
}

impl Refusal {
    /// The number in the table of `docs/RULES.md`; 0 for a word without a meaning.
    pub fn number(&self) -> u8 {
        self.number_and_name().0
    }

    /// The name in the table of `docs/RULES.md`.
    pub fn name(&self) -> &'static str {
        self.number_and_name().1
    }

    fn number_and_name(&self) -> (u8, &'static str) {
        match self {
            Refusal::InvalidSizeRequest => (1, "InvalidSizeRequest"),
            Refusal::InvalidSecret => (2, "InvalidSecret"),
            Refusal::SharingLimitLessThanThreshold => (3, "SharingLimitLessThanThreshold"),
            Refusal::SharingMinThreshold => (4, "SharingMinThreshold"),
            Refusal::NotEnoughShareIdentifiers => (5, "NotEnoughShareIdentifiers"),
            Refusal::SharingInvalidIdentifier { .. } => (6, "SharingInvalidIdentifier"),
            Refusal::SharingDuplicateIdentifier { .. } => (7, "SharingDuplicateIdentifier"),
            Refusal::InvalidShare => (8, "InvalidShare"),
            Refusal::InvalidShareElement => (9, "InvalidShareElement"),
            Refusal::TooLong => (10, "TooLong"),
            Refusal::CoefficientCount => (11, "CoefficientCount"),
            Refusal::NoRoom => (12, "NoRoom"),
            Refusal::RowLengths => (13, "RowLengths"),
            Refusal::InvalidSheet { .. } => (14, "InvalidSheet"),
            Refusal::UnknownWord(_) => (0, "UnknownWord"),
        }
    }
}

impl fmt::Display for Refusal {
    fn fmt(&self, f: &mut fmt::Formatter<'_>) -> fmt::Result {
        match self {
            Refusal::InvalidSizeRequest => {
                f.write_str("split makes at most 255 rows, and a sheet's threshold is at most 255")
            }
            Refusal::InvalidSecret => {
                f.write_str("the secret is empty; it must have at least one byte")
            }
            Refusal::SharingLimitLessThanThreshold => f.write_str(
                "fewer rows are asked for than the threshold; ask for more rows or lower the threshold",
            ),
            Refusal::SharingMinThreshold => f.write_str(
                "split and sheet need a threshold of at least 2; combine needs at least 2 rows, \
                 and sheet at least 1",
            ),
            Refusal::NotEnoughShareIdentifiers => {
                f.write_str("there are fewer identifiers than rows; give one for each row")
            }
            Refusal::SharingInvalidIdentifier { place } => {
                write!(f, "row {place} has identifier 0; identifiers are 1 to 255")
            }
            Refusal::SharingDuplicateIdentifier { first, second } => write!(
                f,
                "rows {first} and {second} carry the same identifier; give each row once"
            ),
            Refusal::InvalidShare => f.write_str(
                "the rows differ in length, or the first has no value behind its identifier; \
                 give rows of one split, whole",
            ),
            Refusal::InvalidShareElement => {
                f.write_str("zero has no inverse, and an identifier is exactly one byte")
            }
            Refusal::TooLong => write!(
                f,
                "the secret is longer than {MAX_SECRET} bytes; share it in parts, or share the key that \
                 seals it"
            ),
            Refusal::CoefficientCount => f.write_str(
                "the coefficients must be exactly as many as the secret's bytes times the threshold less 1",
            ),
            Refusal::NoRoom => f.write_str(
                "the output is too short; split needs the row count times the secret's length plus 1, \
                 combine a row's length less 1, sheet at most what sheet_room says, \
                 and reading one what rows_room says",
            ),
            Refusal::RowLengths => f.write_str(
                "the row lengths do not add up to the bytes given as rows, or there are more than \
                 65,535 of them",
            ),
            Refusal::InvalidSheet { line: 0 } => f.write_str(
                "line 0 of the text is not that of a sheet, or not whole: 'seal', the threshold, \
                 the count of rows and that of a row's values, parted by tabs and ended by a line feed",
            ),
            Refusal::InvalidSheet { line } => write!(
                f,
                "line {line} of the text, counting from 0, is not the row that the sheet has there, \
                 not whole, or one too many: a row is 'row', an identifier that no other has, and \
                 its values in lower-case hex, parted by tabs and ended by a line feed"
            ),
            Refusal::UnknownWord(word) => write!(
                f,
                "the library answered {word:#x}, which has no meaning here; build the library and \
                 this program from the same files"
            ),
        }
    }
}

impl Error for Refusal {}

/// Reads the word that comes back from the library: the count of bytes written, or why nothing
/// was.
///
/// A word that no call can give is [`Refusal::UnknownWord`].
///
/// ```
/// use vsss::{decode, Refusal};
/// assert_eq!(decode(33), Ok(33));
/// assert_eq!(
///     decode((7 << 40) + (2 << 16) + 5),
///     Err(Refusal::SharingDuplicateIdentifier { first: 2, second: 5 })
/// );
/// assert_eq!(decode(99 << 40), Err(Refusal::UnknownWord(99 << 40)));
/// ```
pub fn decode(word: u64) -> Result<usize, Refusal> {
    let number = word >> 40;
    let first = (word >> 16 & 0xff_ffff) as usize;
    let second = (word & 0xffff) as usize;
    let refusal = match (number, first, second) {
        (0, _, _) => return usize::try_from(word).map_err(|_| Refusal::UnknownWord(word)),
        (1, 0, 0) => Refusal::InvalidSizeRequest,
        (2, 0, 0) => Refusal::InvalidSecret,
        (3, 0, 0) => Refusal::SharingLimitLessThanThreshold,
        (4, 0, 0) => Refusal::SharingMinThreshold,
        (5, 0, 0) => Refusal::NotEnoughShareIdentifiers,
        (6, place, 0) => Refusal::SharingInvalidIdentifier { place },
        (7, first, second) if first < second => {
            Refusal::SharingDuplicateIdentifier { first, second }
        }
        (8, 0, 0) => Refusal::InvalidShare,
        (9, 0, 0) => Refusal::InvalidShareElement,
        (10, 0, 0) => Refusal::TooLong,
        (11, 0, 0) => Refusal::CoefficientCount,
        (12, 0, 0) => Refusal::NoRoom,
        (13, 0, 0) => Refusal::RowLengths,
        (14, line, 0) if line <= MAX_SHARES + 1 => Refusal::InvalidSheet { line },
        _ => Refusal::UnknownWord(word),
    };
    Err(refusal)
}

#[cfg(test)]
mod tests {
    use super::*;

    fn word(number: u64, first: u64, second: u64) -> u64 {
        (number << 40) + (first << 16) + second
    }

    const WITHOUT_PLACES: [Refusal; 11] = [
        Refusal::InvalidSizeRequest,
        Refusal::InvalidSecret,
        Refusal::SharingLimitLessThanThreshold,
        Refusal::SharingMinThreshold,
        Refusal::NotEnoughShareIdentifiers,
        Refusal::InvalidShare,
        Refusal::InvalidShareElement,
        Refusal::TooLong,
        Refusal::CoefficientCount,
        Refusal::NoRoom,
        Refusal::RowLengths,
    ];

    #[test]
    fn a_count_is_done() {
        assert_eq!(decode(0), Ok(0));
        let most = MAX_SHARES * (MAX_SECRET + 1);
        assert_eq!(decode(most as u64), Ok(most));
        assert_eq!(decode((1 << 40) - 1), Ok((1 << 40) - 1));
    }

    #[test]
    fn each_number_gives_its_case() {
        for refusal in WITHOUT_PLACES {
            assert_eq!(decode(word(refusal.number().into(), 0, 0)), Err(refusal));
        }
    }

    #[test]
    fn the_numbers_are_1_to_14() {
        let mut numbers: Vec<u8> = WITHOUT_PLACES.iter().map(Refusal::number).collect();
        numbers.push(Refusal::SharingInvalidIdentifier { place: 0 }.number());
        numbers.push(
            Refusal::SharingDuplicateIdentifier {
                first: 0,
                second: 1,
            }
            .number(),
        );
        numbers.push(Refusal::InvalidSheet { line: 0 }.number());
        numbers.sort();
        assert_eq!(numbers, (1..=14).collect::<Vec<u8>>());
    }

    #[test]
    fn places_are_read() {
        for place in [0, 1, 254, 65_534] {
            assert_eq!(
                decode(word(6, place, 0)),
                Err(Refusal::SharingInvalidIdentifier {
                    place: place as usize
                })
            );
        }
        assert_eq!(
            decode(word(7, 65_533, 65_534)),
            Err(Refusal::SharingDuplicateIdentifier {
                first: 65_533,
                second: 65_534
            })
        );
        // The most lines are those of 255 rows, the first one, and one too many.
        for line in [0, 1, 255, 256] {
            let refusal = Refusal::InvalidSheet {
                line: line as usize,
            };
            assert_eq!(decode(word(14, line, 0)), Err(refusal));
        }
    }

    #[test]
    fn a_word_without_a_meaning_is_a_case_of_its_own() {
        let words = [
            word(15, 0, 0),
            word(1, 1, 0),
            word(13, 0, 1),
            word(6, 0, 1),
            word(7, 0, 0),
            word(7, 3, 3),
            word(7, 4, 3),
            word(14, 257, 0),
            word(14, 1, 1),
            1 << 63,
            u64::MAX,
        ];
        for word in words {
            assert_eq!(decode(word), Err(Refusal::UnknownWord(word)));
            assert_eq!(Refusal::UnknownWord(word).number(), 0);
        }
    }

    #[test]
    fn a_refusal_names_its_places() {
        let zero = Refusal::SharingInvalidIdentifier { place: 2 };
        let twice = Refusal::SharingDuplicateIdentifier {
            first: 0,
            second: 3,
        };
        assert_eq!(
            zero.to_string(),
            "row 2 has identifier 0; identifiers are 1 to 255"
        );
        assert_eq!(
            twice.to_string(),
            "rows 0 and 3 carry the same identifier; give each row once"
        );
        for line in [0, 1, 256] {
            let said = Refusal::InvalidSheet { line }.to_string();
            assert!(
                said.starts_with(&format!("line {line} of the text")),
                "{said}"
            );
        }
    }
}
