//! The original's functions, by the names of its text, with errors as document 01's numbers.

use vsss_rs::reach_gf256;
use vsss_rs::script::Script;
use vsss_rs::subtle::Choice;
use vsss_rs::{
    CtIsNotZero, CtIsZero, DefaultShare, Error, Gf256, IdentifierGf256, Polynomial, ShareElement,
    ShareIdentifier,
};

pub use vsss_rs::reach_gf256::{gf256_mul, invert};
pub use vsss_rs::reach_util::{field_bounded_add, uniform_nonzero_u8};

/// Document 01's number of an error.
///
/// # Panics
/// For the errors that no compared function gives.
fn number(error: Error) -> u32 {
    match error {
        Error::InvalidSizeRequest => 1,
        Error::InvalidSecret => 2,
        Error::SharingLimitLessThanThreshold => 3,
        Error::SharingMinThreshold => 4,
        Error::NotEnoughShareIdentifiers => 5,
        Error::SharingInvalidIdentifier => 6,
        Error::SharingDuplicateIdentifier => 7,
        Error::InvalidShare => 8,
        Error::InvalidShareElement => 9,
        other => panic!("document 01 has no number for {other:?}"),
    }
}

/// # Panics
/// For `b` = 0, as the original does.
pub fn div(a: u8, b: u8) -> u8 {
    (Gf256(a) / Gf256(b)).0
}

pub fn add(a: u8, b: u8) -> u8 {
    (Gf256(a) + Gf256(b)).0
}

pub fn sub(a: u8, b: u8) -> u8 {
    (Gf256(a) - Gf256(b)).0
}

pub fn neg(a: u8) -> u8 {
    (-Gf256(a)).0
}

/// The original's zero test, for the types that document 01 takes.
pub fn ct_is_zero<T: CtIsZero + ?Sized>(value: &T) -> u8 {
    Choice::unwrap_u8(&value.ct_is_zero())
}

/// The original's test for not being zero, for the types that document 01 takes.
pub fn ct_is_not_zero<T: CtIsNotZero + ?Sized>(value: &T) -> u8 {
    Choice::unwrap_u8(&value.ct_is_not_zero())
}

/// `IdentifierGf256::inc`.
pub fn identifier_inc(id: u8, increment: u8) -> u8 {
    let mut id = identifier(id);
    id.inc(&identifier(increment));
    id.0.0
}

/// `IdentifierGf256::invert`.
pub fn identifier_invert(id: u8) -> Result<u8, u32> {
    let inverse = ShareIdentifier::invert(&identifier(id)).map_err(number)?;
    Ok(inverse.0.0)
}

/// `IdentifierGf256::from_slice`.
pub fn identifier_from_slice(slice: &[u8]) -> Result<u8, u32> {
    let id = IdentifierGf256::from_slice(slice).map_err(number)?;
    Ok(id.0.0)
}

/// `IdentifierGf256::ZERO` and `IdentifierGf256::ONE`.
pub const IDENTIFIER_ZERO: u8 = IdentifierGf256::ZERO.0.0;
pub const IDENTIFIER_ONE: u8 = IdentifierGf256::ONE.0.0;

/// The value of a row: Horner's rule of the text's polynomial. Coefficients from degree 1 up.
pub fn evaluate(secret: u8, coefficients: &[u8], id: u8) -> u8 {
    type Share = DefaultShare<IdentifierGf256, IdentifierGf256>;
    let threshold = coefficients.len() + 1;
    let mut polynomial = <Vec<Share> as Polynomial<Share>>::create(threshold);
    polynomial
        .fill(&identifier(secret), Script::new(coefficients), threshold)
        .expect("the polynomial was made for this threshold");
    polynomial.evaluate(&identifier(id), threshold).0.0
}

/// The coefficients of combine.
///
/// # Panics
/// Where a row has no identifier: combine's own checks come before it.
pub fn lagrange_coefficients(rows: &[Vec<u8>]) -> Result<Vec<u8>, u32> {
    reach_gf256::lagrange_coefficients(rows).map_err(number)
}

/// `split_bytes_with_participant_ids_iter`, with the coefficients as its random source.
///
/// # Panics
/// Where it accepts and would not draw every coefficient exactly once: refusal 11 of ours, which
/// the original does not have.
pub fn split(
    threshold: usize,
    limit: usize,
    secret: &[u8],
    ids: &[u8],
    coefficients: &[u8],
) -> Result<Vec<Vec<u8>>, u32> {
    let mut script = Script::new(coefficients);
    let rows = reach_gf256::split_bytes_with_participant_ids_iter(
        threshold,
        limit,
        secret,
        &mut script,
        ids,
    );
    let rows = rows.map_err(number)?;
    assert!(script.is_at_its_end(), "coefficients are left over");
    Ok(rows)
}

/// `combine_bytes`.
pub fn combine(rows: &[Vec<u8>]) -> Result<Vec<u8>, u32> {
    reach_gf256::combine_bytes(rows).map_err(number)
}

fn identifier(byte: u8) -> IdentifierGf256 {
    IdentifierGf256(Gf256(byte))
}
