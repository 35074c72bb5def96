//! Calls to compare: every boundary, short ones exhaustively, and random ones.

mod boundaries;
mod random_calls;
mod sheets;
mod short;
mod texts;

pub use boundaries::boundary_calls;
pub use random_calls::random_call;
pub use sheets::{random_sheet_call, random_whole_sheet, sheet_boundary_calls};
pub use short::short_calls;
pub use texts::{damaged, random_read_call, read_boundary_calls};

use crate::{CombineCall, SplitCall};

/// A long secret: many whole blocks, and still short enough to be tried often and stored.
pub const LONG: usize = 4096;

#[derive(Clone, Debug)]
pub enum Call {
    Split(SplitCall),
    Combine(CombineCall),
    /// A combine whose lengths cross the C interface in a form that no list of numbers has.
    LengthBytes(LengthBytesCall),
}

#[derive(Clone, Debug)]
pub struct LengthBytesCall {
    pub rows: Vec<u8>,
    pub lengths: Vec<u8>,
    pub room: usize,
}
