//! The proved library as the oracle sees an implementation: by its C entries.

use oracle::{Outcome, Sharing};

pub struct Library;

impl Sharing for Library {
    fn split(
        &self,
        threshold: usize,
        limit: usize,
        secret: &[u8],
        ids: &[u8],
        coefficients: &[u8],
        out: &mut [u8],
    ) -> Outcome {
        Outcome::from_word(vsss::entry::split_bytes(
            threshold,
            limit,
            secret,
            ids,
            coefficients,
            out,
        ))
    }

    fn combine(&self, rows: &[u8], lengths: &[u32], out: &mut [u8]) -> Outcome {
        let bytes: Vec<u8> = lengths.iter().flat_map(|l| l.to_le_bytes()).collect();
        Outcome::from_word(vsss::entry::combine_bytes(rows, &bytes, out))
    }

    fn combine_length_bytes(&self, rows: &[u8], lengths: &[u8], out: &mut [u8]) -> Option<Outcome> {
        Some(Outcome::from_word(vsss::entry::combine_bytes(
            rows, lengths, out,
        )))
    }
}
