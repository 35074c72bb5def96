//! Buffers of secrets, and how they are wiped.

use std::fmt;
use std::ops::{Deref, DerefMut};
use std::sync::atomic::{compiler_fence, Ordering};

/// Sets every byte to 0, in a way that the compiler cannot leave out.
///
/// ```
/// let mut key = [7; 32];
/// vsss::wipe(&mut key);
/// assert_eq!(key, [0; 32]);
/// ```
#[allow(unsafe_code)]
pub fn wipe(bytes: &mut [u8]) {
    for byte in bytes {
        // SAFETY: `byte` is an exclusive reference to one live byte. The write is volatile because
        // a plain one, to memory that nothing reads again, would be left out.
        unsafe { std::ptr::write_volatile(byte, 0) };
    }
    // Keeps what comes after, such as giving the memory back, behind the writes.
    compiler_fence(Ordering::SeqCst);
}

/// Bytes that are wiped when they are dropped. The length is fixed, so no copy is left behind by
/// growing. `Debug` shows the length alone; there is no `Clone` and no `==`.
///
/// ```
/// use vsss::Secret;
/// let mut key = Secret::zeroed(2);
/// key.copy_from_slice(&[0x2a, 0x2b]);
/// assert_eq!(key[1], 0x2b);
/// assert_eq!(format!("{key:?}"), "Secret(2 bytes)");
/// ```
pub struct Secret {
    bytes: Vec<u8>,
}

impl Secret {
    /// A buffer of `len` zeros, to be filled.
    pub fn zeroed(len: usize) -> Secret {
        Secret {
            bytes: vec![0; len],
        }
    }

    /// A copy of `bytes`. The original stays with the caller.
    pub fn copy_of(bytes: &[u8]) -> Secret {
        Secret {
            bytes: bytes.to_vec(),
        }
    }

    fn wipe_all(&mut self) {
        // What was taken over from a caller may hold more than its length shows. This writes
        // within the capacity and so moves nothing.
        self.bytes.resize(self.bytes.capacity(), 0);
        wipe(&mut self.bytes);
    }
}

impl Drop for Secret {
    fn drop(&mut self) {
        self.wipe_all();
    }
}

/// Takes the bytes over, without a copy.
impl From<Vec<u8>> for Secret {
    fn from(bytes: Vec<u8>) -> Secret {
        Secret { bytes }
    }
}

impl Deref for Secret {
    type Target = [u8];

    fn deref(&self) -> &[u8] {
        &self.bytes
    }
}

impl DerefMut for Secret {
    fn deref_mut(&mut self) -> &mut [u8] {
        &mut self.bytes
    }
}

impl AsRef<[u8]> for Secret {
    fn as_ref(&self) -> &[u8] {
        self
    }
}

impl fmt::Debug for Secret {
    fn fmt(&self, f: &mut fmt::Formatter<'_>) -> fmt::Result {
        write!(f, "Secret({} bytes)", self.len())
    }
}

#[cfg(test)]
mod tests {
    use super::*;

    #[test]
    fn wiping_reaches_every_byte_and_no_other() {
        let mut bytes = [9; 10];
        wipe(&mut bytes[3..7]);
        assert_eq!(bytes, [9, 9, 9, 0, 0, 0, 0, 9, 9, 9]);
        wipe(&mut []);
    }

    #[test]
    fn wiping_reaches_what_lies_beyond_the_length() {
        let mut bytes = Vec::with_capacity(64);
        bytes.extend_from_slice(&[5; 40]);
        bytes.truncate(3);
        let place = bytes.as_ptr();
        let mut secret = Secret::from(bytes);
        secret.wipe_all();
        assert_eq!(
            secret.bytes.as_ptr(),
            place,
            "moved instead of wiped in place"
        );
        assert!(secret.bytes.len() >= 64);
        assert!(secret.bytes.iter().all(|&byte| byte == 0));
    }

    #[test]
    fn printing_shows_no_byte() {
        assert_eq!(
            format!("{:?}", Secret::copy_of(&[1, 2, 3])),
            "Secret(3 bytes)"
        );
    }
}
