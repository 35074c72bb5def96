//! Secret sharing of bytes: safe Rust over the proved library `libvsss.a`.
//!
//! A secret of up to [`MAX_SECRET`] bytes is split into rows, one for each holder. Any `threshold` rows
//! with distinct identifiers give it back; fewer say nothing of it. [`split`] takes an identifier twice:
//! it then makes one row twice, which counts once, and [`combine`] refuses the two together.
//!
//! ```
//! // Any 2 of 3 rows. One coefficient for each secret byte and each degree from 1 to 2 - 1.
//! let secret = [0x2a];
//! let coefficients = [0x05]; // fresh random bytes, never used twice
//! let rows = vsss::split(2, &[1, 2, 3], &secret, &coefficients)?;
//! assert_eq!(rows[0].as_bytes(), [0x01, 0x2f]);
//! assert_eq!(rows[1].as_bytes(), [0x02, 0x20]);
//! assert_eq!(rows[2].as_bytes(), [0x03, 0x25]);
//!
//! let again = vsss::combine(&[&rows[2], &rows[0]])?;
//! assert_eq!(again[..], secret);
//! # Ok::<(), vsss::Refusal>(())
//! ```
//!
//! **`combine` never learns the threshold.** Too few rows, or a damaged one, succeed with a wrong
//! secret:
//!
//! ```
//! let rows = vsss::split(3, &[1, 2, 3], &[0x2a], &[0x05, 0x07])?;
//! let wrong = vsss::combine(&rows[..2])?;
//! assert_eq!(wrong[..], [0x24]);
//! # Ok::<(), vsss::Refusal>(())
//! ```
//!
//! What is refused, and in which order, is in `docs/RULES.md`. A refusal says its place:
//!
//! ```
//! let refusal = vsss::combine(&[[1, 9], [2, 9], [0, 9]]).unwrap_err();
//! assert_eq!(refusal, vsss::Refusal::SharingInvalidIdentifier { place: 2 });
//! assert_eq!(refusal.number(), 6);
//! assert!(refusal.to_string().starts_with("row 2 has identifier 0"));
//! ```
//!
//! Rows can be kept on paper, as lines of text; a holder may print his own alone. The text is read
//! back into the same rows and threshold, and every other text is refused by its line:
//!
//! ```
//! let text = vsss::sheet(2, &[[0x01, 0x2f]])?;
//! assert_eq!(&text[..], b"seal\t2\t1\t1\nrow\t1\t2f\n");
//!
//! let sheet = vsss::read_sheet(&text)?;
//! assert_eq!(sheet.threshold, 2);
//! assert_eq!(sheet.rows[0].as_bytes(), [0x01, 0x2f]);
//!
//! let refusal = vsss::read_sheet(b"seal\t2\t1\t1\nrow\t1\t2F\n").unwrap_err();
//! assert_eq!(refusal, vsss::Refusal::InvalidSheet { line: 1 });
//! # Ok::<(), vsss::Refusal>(())
//! ```
//!
//! | on slices that you lend | owned |
//! |---|---|
//! | [`split_into`], [`combine_into`] | [`split`], [`combine`], [`Row`], [`Secret`] |
//! | [`sheet_into`], [`read_sheet_into`] | [`sheet`], [`read_sheet`], [`Sheet`] |
//!
//! [`entry`] has the calls themselves, with the bare word that comes back.

#![warn(missing_docs)]
#![deny(unsafe_code)]

mod crossing;
pub mod entry;
mod reading;
mod refusal;
mod sharing;
mod sheet;
mod wipe;

pub use reading::{read_sheet, read_sheet_into, rows_room, Sheet, SheetHead};
pub use refusal::{decode, Refusal};
pub use sharing::{coefficients_needed, combine, combine_into, split, split_into, Row};
pub use sheet::{sheet, sheet_into, sheet_room};
pub use wipe::{wipe, Secret};

/// The longest secret, in bytes: the library refuses a longer one.
pub const MAX_SECRET: usize = 65_536;

/// The most rows that a split makes.
pub const MAX_SHARES: usize = 255;
