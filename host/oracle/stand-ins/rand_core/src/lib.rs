//! Stand-in for `rand_core` 0.10: the traits of a random source.
//!
//! What the comparison rests on here: `next_u32` of an infallible source is one `try_next_u32`,
//! and a borrowed source passes each draw on unchanged. One word is then drawn for a coefficient.

use core::convert::Infallible;
use core::ops::DerefMut;

pub trait TryRng {
    type Error;

    fn try_next_u32(&mut self) -> Result<u32, Self::Error>;
    fn try_next_u64(&mut self) -> Result<u64, Self::Error>;
    fn try_fill_bytes(&mut self, bytes: &mut [u8]) -> Result<(), Self::Error>;
}

impl<R> TryRng for R
where
    R: DerefMut<Target: TryRng>,
{
    type Error = <R::Target as TryRng>::Error;

    fn try_next_u32(&mut self) -> Result<u32, Self::Error> {
        self.deref_mut().try_next_u32()
    }

    fn try_next_u64(&mut self) -> Result<u64, Self::Error> {
        self.deref_mut().try_next_u64()
    }

    fn try_fill_bytes(&mut self, bytes: &mut [u8]) -> Result<(), Self::Error> {
        self.deref_mut().try_fill_bytes(bytes)
    }
}

pub trait Rng: TryRng<Error = Infallible> {
    fn next_u32(&mut self) -> u32 {
        let Ok(word) = self.try_next_u32();
        word
    }
}

impl<R: TryRng<Error = Infallible> + ?Sized> Rng for R {}

pub trait TryCryptoRng: TryRng {}

impl<R> TryCryptoRng for R where R: DerefMut<Target: TryCryptoRng> {}

pub trait CryptoRng: Rng + TryCryptoRng {}

impl<R: TryCryptoRng<Error = Infallible> + ?Sized> CryptoRng for R {}
