//! The splitter of LUKS 1.2.2, section 2.4, over either hash.

use crate::hash::Hash;

fn xor(a: &[u8], b: &[u8]) -> Vec<u8> {
    a.iter().zip(b).map(|(a, b)| a ^ b).collect()
}

/// H: each piece as long as a digest, the last maybe shorter, becomes the digest of its number and itself, cropped to
/// its length.
fn diffuse(hash: Hash, bytes: &[u8]) -> Vec<u8> {
    let mut out = Vec::new();
    for (number, piece) in (0u32..).zip(bytes.chunks(hash.size())) {
        let digest = hash.digest(&[&number.to_be_bytes(), piece].concat());
        out.extend_from_slice(&digest[..piece.len()]);
    }
    out
}

/// d(n-1): what the stripes before the last are folded to.
fn fold(hash: Hash, stripes: &[u8], length: usize) -> Vec<u8> {
    stripes.chunks_exact(length).fold(vec![0; length], |d, stripe| diffuse(hash, &xor(&d, stripe)))
}

/// The n stripes of a key; `random` holds the first n - 1.
pub fn split(hash: Hash, key: &[u8], random: &[u8]) -> Vec<u8> {
    let last = xor(&fold(hash, random, key.len()), key);
    [random, &last].concat()
}

/// The key of at least one stripe of `length` bytes each.
pub fn merge(hash: Hash, stripes: &[u8], length: usize) -> Vec<u8> {
    let (before, last) = stripes.split_at(stripes.len() - length);
    xor(&fold(hash, before, length), last)
}

#[cfg(test)]
mod tests {
    use super::*;
    use std::ops::Range;

    #[test]
    fn one_stripe_is_the_key() {
        for hash in Hash::ALL {
            for length in [32, 64] {
                assert_eq!(split(hash, &vec![7; length], &[]), vec![7; length]);
                assert_eq!(merge(hash, &vec![7; length], length), vec![7; length]);
            }
        }
    }

    /// A stripe of as many bytes as the last piece ends at: the pieces are numbered from 0, and each is hashed by itself.
    fn has_pieces(hash: Hash, pieces: &[Range<usize>]) {
        let length = pieces[pieces.len() - 1].end;
        let stripe: Vec<u8> = (0..length as u8).collect();
        let mut expected = Vec::new();
        for (number, range) in (0u8..).zip(pieces) {
            let text = [&[0, 0, 0, number], &stripe[range.clone()]].concat();
            expected.extend_from_slice(&hash.digest(&text)[..range.len()]);
        }
        assert_eq!(diffuse(hash, &stripe), expected);
        assert_eq!(split(hash, &vec![0; length], &stripe), [stripe, expected].concat());
    }

    #[test]
    fn pieces_of_20_bytes() {
        has_pieces(Hash::Sha1, &[0..20, 20..32]);
        has_pieces(Hash::Sha1, &[0..20, 20..40, 40..60, 60..64]);
    }

    #[test]
    #[allow(clippy::single_range_in_vec_init)]
    fn pieces_of_32_bytes() {
        has_pieces(Hash::Sha256, &[0..32]);
        has_pieces(Hash::Sha256, &[0..32, 32..64]);
    }

    #[test]
    fn merging_undoes_splitting() {
        for hash in Hash::ALL {
            for (length, stripes) in [(32, 2), (32, 17), (64, 5)] {
                let key: Vec<u8> = (0..length as u8).collect();
                let random: Vec<u8> = (0..length * (stripes - 1)).map(|i| (i * i % 251) as u8).collect();
                assert_eq!(merge(hash, &split(hash, &key, &random), length), key);
            }
        }
    }
}
