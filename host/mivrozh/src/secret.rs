//! Keys and passphrases: bytes in memory of their own, wiped when they are dropped, that Debug does not print.
use crate::memory::Pages;
use crate::raw;
use std::fmt;

/// Bytes that only their owner sees. They stand in whole pages of memory that are locked where the system allows it, so
/// that they do not reach the swap, and left out of core dumps. They are overwritten when the value is dropped. They
/// are not copied: there is no `Clone`, and no way to make them longer.
pub struct Secret {
    pages: Pages,
    length: usize,
}

impl Secret {
    /// `length` zero bytes, to be filled in place through [`Secret::expose_mut`].
    pub fn zeroed(length: usize) -> Secret {
        Secret { pages: Pages::zeroed(length), length }
    }

    /// The bytes themselves. Copies of them are not wiped.
    pub fn expose(&self) -> &[u8] {
        &self.pages.bytes()[..self.length]
    }

    /// The bytes, to be filled in place.
    pub fn expose_mut(&mut self) -> &mut [u8] {
        &mut self.pages.bytes_mut()[..self.length]
    }

    /// Keeps the first `length` bytes and wipes the others.
    pub fn truncate(&mut self, length: usize) {
        if length < self.length {
            raw::wipe(&mut self.expose_mut()[length..]);
            self.length = length;
        }
    }

    pub fn len(&self) -> usize {
        self.length
    }

    pub fn is_empty(&self) -> bool {
        self.length == 0
    }
}

impl From<Vec<u8>> for Secret {
    /// Copies the bytes, and wipes the vector with its spare capacity.
    fn from(mut bytes: Vec<u8>) -> Secret {
        let secret = Secret::from(&bytes[..]);
        // Growing within the capacity allocates nothing.
        bytes.resize(bytes.capacity(), 0);
        raw::wipe(&mut bytes);
        secret
    }
}

impl From<&[u8]> for Secret {
    /// Copies the bytes; the caller still has its own to wipe.
    fn from(bytes: &[u8]) -> Secret {
        let mut secret = Secret::zeroed(bytes.len());
        secret.expose_mut().copy_from_slice(bytes);
        secret
    }
}

impl fmt::Debug for Secret {
    fn fmt(&self, f: &mut fmt::Formatter<'_>) -> fmt::Result {
        f.write_str("Secret(..)")
    }
}

#[cfg(test)]
mod tests {
    use super::*;

    #[test]
    fn debug_prints_nothing_of_it() {
        let short = Secret::from(&b"a"[..]);
        let long = Secret::from(vec![7; 64]);
        assert_eq!(format!("{short:?}"), format!("{long:?}"));
        assert_eq!(format!("{long:?}"), "Secret(..)");
    }

    #[test]
    fn truncate_keeps_the_beginning() {
        let mut secret = Secret::from(&b"passphrase\n"[..]);
        secret.truncate(10);
        assert_eq!(secret.expose(), b"passphrase");
        secret.truncate(20);
        assert_eq!(secret.len(), 10);
    }
}
