//! The random source of the comparison.

use core::convert::Infallible;
use rand_core::{TryCryptoRng, TryRng};

/// Gives words whose low byte is the next coefficient.
///
/// The bytes above are not zero, so that a use of them would show.
pub struct Script<'a> {
    coming: core::slice::Iter<'a, u8>,
}

impl<'a> Script<'a> {
    pub fn new(coefficients: &'a [u8]) -> Self {
        Script {
            coming: coefficients.iter(),
        }
    }

    pub fn is_at_its_end(&self) -> bool {
        self.coming.as_slice().is_empty()
    }
}

impl TryRng for Script<'_> {
    type Error = Infallible;

    fn try_next_u32(&mut self) -> Result<u32, Infallible> {
        let byte = self.coming.next().expect("the coefficients have ended");
        Ok(0xa5c3_9600 | u32::from(*byte))
    }

    fn try_next_u64(&mut self) -> Result<u64, Infallible> {
        unreachable!("a coefficient is one word of 32 bits")
    }

    fn try_fill_bytes(&mut self, _: &mut [u8]) -> Result<(), Infallible> {
        unreachable!("a coefficient is one word of 32 bits")
    }
}

impl TryCryptoRng for Script<'_> {}
