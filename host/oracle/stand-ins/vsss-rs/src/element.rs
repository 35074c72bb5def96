//! Stand-in for the original's `element.rs`: the traits that its byte field implements.
//!
//! No behaviour of the comparison rests on it: every method that split and combine call on an
//! identifier is written out in the text's `gf256.rs`; `for<'a> From<&'a Self>` and the operators
//! are bounds only.

use crate::VsssResult;
use core::fmt::Debug;
use core::ops::{AddAssign, Deref, DerefMut, Mul, MulAssign, Sub};
use rand_core::CryptoRng;
use subtle::Choice;

pub trait ShareElement:
    Sized
    + Debug
    + Eq
    + Clone
    + Default
    + Deref<Target = Self::Inner>
    + DerefMut
    + AsRef<Self::Inner>
    + AsMut<Self::Inner>
    + From<Self::Inner>
{
    type Serialization;

    type Inner: Clone
        + for<'a> AddAssign<&'a Self::Inner>
        + for<'a> Mul<&'a Self::Inner, Output = Self::Inner>
        + for<'a> MulAssign<&'a Self::Inner>
        + MulAssign
        + Sub<Output = Self::Inner>;

    fn random(rng: impl CryptoRng) -> Self;
    fn zero() -> Self;
    fn one() -> Self;
    fn is_zero(&self) -> Choice;
    fn serialize(&self) -> Self::Serialization;
    fn deserialize(serialized: &Self::Serialization) -> VsssResult<Self>;
    fn from_slice(slice: &[u8]) -> VsssResult<Self>;
    fn to_vec(&self) -> Vec<u8>;
}

pub trait ShareIdentifier: ShareElement {
    fn inc(&mut self, increment: &Self);
    fn invert(&self) -> VsssResult<Self>;
    fn random_coefficient(rng: impl CryptoRng) -> Self;
}

/// Verifiers of the schemes that the byte sharing leaves aside; the text's `set.rs` names them.
pub trait ShareVerifier<S: crate::Share>:
    Copy
    + Debug
    + Default
    + PartialEq
    + AddAssign
    + Sub<Output = Self>
    + Mul<S::Identifier, Output = Self>
    + for<'a> Mul<&'a S::Value, Output = Self>
{
    fn is_zero(&self) -> Choice;
}
