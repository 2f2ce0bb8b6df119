//! SHA-1, FIPS 180-4.

/// The five words of the hash value, section 5.3.1.
pub const INITIAL: [u32; 5] = [0x67452301, 0xefcdab89, 0x98badcfe, 0x10325476, 0xc3d2e1f0];

/// Section 4.1.1: f and section 4.2.1: K, of round t.
fn round(t: usize, x: u32, y: u32, z: u32) -> (u32, u32) {
    match t / 20 {
        0 => ((x & y) ^ (!x & z), 0x5a827999),
        1 => (x ^ y ^ z, 0x6ed9eba1),
        2 => ((x & y) ^ (x & z) ^ (y & z), 0x8f1bbcdc),
        _ => (x ^ y ^ z, 0xca62c1d6),
    }
}

/// Section 6.1.2: the hash value after one block of 64 bytes.
pub fn compress(value: [u32; 5], block: &[u8]) -> [u32; 5] {
    let mut w = [0u32; 80];
    for (word, bytes) in w.iter_mut().zip(block.chunks_exact(4)) {
        *word = u32::from_be_bytes([bytes[0], bytes[1], bytes[2], bytes[3]]);
    }
    for t in 16..80 {
        w[t] = (w[t - 3] ^ w[t - 8] ^ w[t - 14] ^ w[t - 16]).rotate_left(1);
    }
    let [mut a, mut b, mut c, mut d, mut e] = value;
    for (t, word) in w.iter().enumerate() {
        let (f, k) = round(t, b, c, d);
        let next = a.rotate_left(5).wrapping_add(f).wrapping_add(e).wrapping_add(k).wrapping_add(*word);
        (a, b, c, d, e) = (next, a, b.rotate_left(30), c, d);
    }
    let worked = [a, b, c, d, e];
    std::array::from_fn(|i| value[i].wrapping_add(worked[i]))
}

#[cfg(test)]
mod tests {
    use crate::hash::Hash;
    use crate::unhex;

    fn gives(text: &[u8], digits: &str) {
        assert_eq!(Hash::Sha1.digest(text), unhex(digits));
    }

    #[test]
    fn fips_180_examples() {
        gives(b"abc", "a9993e364706816aba3e25717850c26c9cd0d89d");
        gives(b"", "da39a3ee5e6b4b0d3255bfef95601890afd80709");
        gives(b"abcdbcdecdefdefgefghfghighijhijkijkljklmklmnlmnomnopnopq", "84983e441c3bd26ebaae4aa1f95129e5e54670f1");
        gives(&[b'a'; 1_000_000], "34aa973cd4c4daa4f61eeb2bdbad27316534016f");
    }
}
