//! Stand-in for `ff`: the field traits.
//!
//! What the comparison rests on here:
//! - `is_zero` is `ct_eq` with `ZERO`: the test for a zero identifier in split and combine;
//! - `random` is `try_random` of an infallible source: one word for a coefficient.

use rand_core::{Rng, TryRng};
use subtle::{Choice, ConstantTimeEq, CtOption};

pub trait Field: Sized + Copy + ConstantTimeEq {
    const ZERO: Self;
    const ONE: Self;

    fn random<R: Rng + ?Sized>(rng: &mut R) -> Self {
        let Ok(element) = Self::try_random(rng);
        element
    }

    fn is_zero(&self) -> Choice {
        self.ct_eq(&Self::ZERO)
    }

    fn try_random<R: TryRng + ?Sized>(rng: &mut R) -> Result<Self, R::Error>;
    fn square(&self) -> Self;
    fn double(&self) -> Self;
    fn invert(&self) -> CtOption<Self>;
    fn sqrt_ratio(num: &Self, div: &Self) -> (Choice, Self);
}

/// Constants and conversions that no compared function uses.
pub trait PrimeField: Field {
    type Repr;

    const MODULUS: &'static str;
    const NUM_BITS: u32;
    const CAPACITY: u32;
    const TWO_INV: Self;
    const MULTIPLICATIVE_GENERATOR: Self;
    const S: u32;
    const ROOT_OF_UNITY: Self;
    const ROOT_OF_UNITY_INV: Self;
    const DELTA: Self;

    fn from_repr(repr: Self::Repr) -> CtOption<Self>;
    fn to_repr(&self) -> Self::Repr;
    fn is_odd(&self) -> Choice;
}
