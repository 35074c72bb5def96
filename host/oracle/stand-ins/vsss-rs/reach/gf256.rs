
/// Appended to the copy: functions of the text above that are out of reach from outside, and its
/// split and combine for the types that the oracle uses. These are compiled here, beside the
/// product, so that the compiler can inline it as it does inside any one crate.
pub mod reach_gf256 {
    use super::*;

    pub fn gf256_mul(a: u8, b: u8) -> u8 {
        super::gf256_mul(a, b)
    }

    /// The field trait that `invert` belongs to has no name outside the crate.
    pub fn invert(a: u8) -> Option<u8> {
        let inverse: Option<Gf256> = Gf256(a).invert().into();
        inverse.map(|element| element.0)
    }

    /// The coefficients as bytes.
    pub fn lagrange_coefficients(shares: &[Vec<u8>]) -> VsssResult<Vec<u8>> {
        let coefficients = super::lagrange_coefficients(shares)?;
        Ok(coefficients.iter().map(|coefficient| coefficient.0.0).collect())
    }

    pub fn split_bytes_with_participant_ids_iter(
        threshold: usize,
        limit: usize,
        secret: &[u8],
        script: &mut crate::script::Script<'_>,
        ids: &[u8],
    ) -> VsssResult<Vec<Vec<u8>>> {
        let ids = ids.iter().map(|&id| IdentifierGf256(Gf256(id)));
        Gf256::split_bytes_with_participant_ids_iter(threshold, limit, secret, script, ids)
    }

    pub fn combine_bytes(shares: &[Vec<u8>]) -> VsssResult<Vec<u8>> {
        Gf256::combine_bytes(shares)
    }
}
