//! What the original answers, for comparison with ours.
//!
//! Three sources, by decreasing authority:
//! - `original`: the original's unchanged text, compiled with stand-ins for the crates that it
//!   names. It is there only where the variable `VSSS_RS_SOURCE` named its folder at build time.
//! - [`mod@sample`]: a stored sample of the original's answers, which can be replayed anywhere.
//! - [`mod@reference`]: a plain reading of document 01, written without the original. It alone judges
//!   places and the refusals 10 to 13, which the original does not have.
//!
//! [`compare::run`] puts an implementation of [`Sharing`] beside all that is at hand.
//!
//! The sheets of document 02 are not the original's: there is a plain reading of them, with a
//! stored sample of its own, [`compare::sheets::run`] for a writer of them and
//! [`compare::reading::run`] for a reader.

mod calls;
pub mod compare;
pub mod generate;
mod guarded;
pub mod line_reader;
#[cfg(have_original)]
pub mod original;
mod outcome;
mod random;
pub mod reference;
pub mod sample;
pub mod sample_maker;
mod sharing;
pub mod sheet_sample;

pub use calls::{CombineCall, ReadCall, SheetCall, SplitCall};
pub use guarded::Guarded;
pub use outcome::Outcome;
pub use random::Random;
pub use sharing::{Reference, Sharing};

/// Split and combine of the original as values, for callers that are compiled either way.
#[derive(Clone, Copy)]
pub struct Original {
    /// `original::split`: threshold, limit, secret, identifiers, coefficients.
    pub split: SplitOriginal,
    /// `original::combine`.
    pub combine: CombineOriginal,
}

pub type SplitOriginal = fn(usize, usize, &[u8], &[u8], &[u8]) -> Result<Vec<Vec<u8>>, u32>;
pub type CombineOriginal = fn(&[Vec<u8>]) -> Result<Vec<u8>, u32>;

/// The original, where its text was at hand when this was built.
pub fn original_at_hand() -> Option<Original> {
    #[cfg(have_original)]
    return Some(Original {
        split: original::split,
        combine: original::combine,
    });
    #[cfg(not(have_original))]
    None
}
