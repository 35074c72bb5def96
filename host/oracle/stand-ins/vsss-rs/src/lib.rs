//! Stand-in for the root of the original crate: its module list and what its modules expect to
//! find at the root, for the feature `std`.
//!
//! The modules themselves are the original's text, unchanged; the build script copies it. Without
//! the text this crate is empty. The original's own root cannot be included from another file, and
//! holds no code that split and combine run.

// The text is not ours to mend.
#![allow(clippy::all, deprecated, missing_docs)]

#[cfg(have_original)]
mod element;
#[cfg(have_original)]
pub mod script;

include!(concat!(env!("OUT_DIR"), "/modules.rs"));

#[cfg(have_original)]
mod root {
    pub use crate::element::*;
    pub use crate::error::*;
    pub use crate::gf256::*;
    pub use crate::numbering::*;
    pub use crate::polynomial::*;
    pub use crate::set::*;
    pub use crate::shamir::Shamir;
    pub use crate::share::*;
    pub use crate::util::*;
    pub use std::vec::Vec;
    pub use subtle;
}

#[cfg(have_original)]
pub use root::*;
#[cfg(have_original)]
use shamir::check_params;
