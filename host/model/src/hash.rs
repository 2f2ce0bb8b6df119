//! The hash functions by one name. What FIPS 180-4 says of both: blocks of 64 bytes, words of 32 bits, and the padding
//! of section 5.1.1.

use crate::{sha1, sha256};

/// Bytes of a block.
pub const BLOCK: usize = 64;

#[derive(Clone, Copy, Debug, PartialEq, Eq, Hash)]
pub enum Hash {
    Sha1,
    Sha256,
}

impl Hash {
    pub const ALL: [Hash; 2] = [Hash::Sha1, Hash::Sha256];

    /// As a header's hash field has it.
    pub fn name(self) -> &'static str {
        match self {
            Hash::Sha1 => "sha1",
            Hash::Sha256 => "sha256",
        }
    }

    /// Bytes of a digest.
    pub fn size(self) -> usize {
        match self {
            Hash::Sha1 => 20,
            Hash::Sha256 => 32,
        }
    }

    /// The hash value before the first block.
    pub fn initial(self) -> Vec<u32> {
        match self {
            Hash::Sha1 => sha1::INITIAL.to_vec(),
            Hash::Sha256 => sha256::INITIAL.to_vec(),
        }
    }

    /// The hash value after one block more.
    pub fn compress(self, value: &[u32], block: &[u8]) -> Vec<u32> {
        match self {
            Hash::Sha1 => sha1::compress(value.try_into().expect("five words"), block).to_vec(),
            Hash::Sha256 => sha256::compress(value.try_into().expect("eight words"), block).to_vec(),
        }
    }

    /// The digest of a text whose first `before` bytes, a multiple of 64, are already in `value`, and whose rest is
    /// `text`.
    pub fn resume(self, value: &[u32], before: usize, text: &[u8]) -> Vec<u8> {
        let mut padded = text.to_vec();
        padded.push(0x80);
        padded.resize((padded.len() + 8).next_multiple_of(BLOCK) - 8, 0);
        padded.extend_from_slice(&(8 * (before + text.len()) as u64).to_be_bytes());
        let last = padded.chunks_exact(BLOCK).fold(value.to_vec(), |value, block| self.compress(&value, block));
        last.into_iter().flat_map(u32::to_be_bytes).collect()
    }

    pub fn digest(self, text: &[u8]) -> Vec<u8> {
        self.resume(&self.initial(), 0, text)
    }
}

#[cfg(test)]
mod tests {
    use super::*;

    /// Texts whose padding has room in their last block, and texts for which it needs one more.
    #[test]
    fn a_text_resumed_has_the_digest_of_the_whole() {
        for hash in Hash::ALL {
            for length in [64, 64 + 55, 64 + 56, 64 + 63, 128] {
                let text: Vec<u8> = (0..length).map(|i| (i * i % 251) as u8).collect();
                let value = hash.compress(&hash.initial(), &text[..BLOCK]);
                assert_eq!(hash.resume(&value, BLOCK, &text[BLOCK..]), hash.digest(&text));
                assert_eq!(hash.digest(&text).len(), hash.size());
            }
        }
    }
}
