//! What a library that splits and combines looks like from outside.

use crate::{Outcome, reference};

/// Split and combine on lent buffers. A refused call changes no lent byte.
pub trait Sharing {
    fn split(
        &self,
        threshold: usize,
        limit: usize,
        secret: &[u8],
        ids: &[u8],
        coefficients: &[u8],
        out: &mut [u8],
    ) -> Outcome;

    /// Lists of over 65,535 lengths are never given.
    fn combine(&self, rows: &[u8], lengths: &[u32], out: &mut [u8]) -> Outcome;

    /// Combine with lengths as they cross the C interface, where the library has such an entry.
    fn combine_length_bytes(&self, rows: &[u8], lengths: &[u8], out: &mut [u8]) -> Option<Outcome> {
        let _ = (rows, lengths, out);
        None
    }
}

/// The plain reading of document 01 as a library.
pub struct Reference;

impl Sharing for Reference {
    fn split(
        &self,
        threshold: usize,
        limit: usize,
        secret: &[u8],
        ids: &[u8],
        coefficients: &[u8],
        out: &mut [u8],
    ) -> Outcome {
        reference::split(threshold, limit, secret, ids, coefficients, out)
    }

    fn combine(&self, rows: &[u8], lengths: &[u32], out: &mut [u8]) -> Outcome {
        reference::combine(rows, lengths, out)
    }

    fn combine_length_bytes(&self, rows: &[u8], lengths: &[u8], out: &mut [u8]) -> Option<Outcome> {
        Some(reference::combine_length_bytes(rows, lengths, out))
    }
}
