//! SHA-256, FIPS 180-4. The constants are computed from what the standard says they are.

use std::sync::LazyLock;

/// The first 32 bits of the fractional part of the root of a number, of the given degree: of the root of the number
/// times 2 to the power of 32 times the degree, the last 32 bits before the point.
fn root_bits(number: u128, degree: u32) -> u32 {
    let scaled = number << (32 * degree);
    // The root, bit by bit from the highest: that of a prime below 2^9 is below 2^5, or 2^37 when scaled.
    let root = (0..37).rev().fold(0u128, |root, bit| {
        let larger = root | 1 << bit;
        if larger.pow(degree) <= scaled {
            larger
        } else {
            root
        }
    });
    root as u32
}

/// The first prime numbers, so many of them.
fn primes(many: usize) -> impl Iterator<Item = u128> {
    (2..).filter(|n: &u128| (2..*n).all(|d| !n.is_multiple_of(d))).take(many)
}

/// Section 5.3.3: the eight words of the hash value, from the square roots of the first eight primes.
pub static INITIAL: LazyLock<[u32; 8]> = LazyLock::new(|| {
    let roots: Vec<u32> = primes(8).map(|p| root_bits(p, 2)).collect();
    roots.try_into().expect("eight words")
});

/// Section 4.2.2: K, from the cube roots of the first 64 primes.
static K: LazyLock<[u32; 64]> = LazyLock::new(|| {
    let roots: Vec<u32> = primes(64).map(|p| root_bits(p, 3)).collect();
    roots.try_into().expect("64 words")
});

// Section 4.1.2.

fn ch(x: u32, y: u32, z: u32) -> u32 {
    (x & y) ^ (!x & z)
}

fn maj(x: u32, y: u32, z: u32) -> u32 {
    (x & y) ^ (x & z) ^ (y & z)
}

fn large_sigma_0(x: u32) -> u32 {
    x.rotate_right(2) ^ x.rotate_right(13) ^ x.rotate_right(22)
}

fn large_sigma_1(x: u32) -> u32 {
    x.rotate_right(6) ^ x.rotate_right(11) ^ x.rotate_right(25)
}

fn small_sigma_0(x: u32) -> u32 {
    x.rotate_right(7) ^ x.rotate_right(18) ^ x >> 3
}

fn small_sigma_1(x: u32) -> u32 {
    x.rotate_right(17) ^ x.rotate_right(19) ^ x >> 10
}

/// The sum modulo 2^32.
fn sum<const N: usize>(words: [u32; N]) -> u32 {
    words.into_iter().fold(0, u32::wrapping_add)
}

/// Section 6.2.2: the hash value after one block of 64 bytes.
pub fn compress(value: [u32; 8], block: &[u8]) -> [u32; 8] {
    let mut w = [0u32; 64];
    for (word, bytes) in w.iter_mut().zip(block.chunks_exact(4)) {
        *word = u32::from_be_bytes([bytes[0], bytes[1], bytes[2], bytes[3]]);
    }
    for t in 16..64 {
        w[t] = sum([small_sigma_1(w[t - 2]), w[t - 7], small_sigma_0(w[t - 15]), w[t - 16]]);
    }
    let [mut a, mut b, mut c, mut d, mut e, mut f, mut g, mut h] = value;
    for (word, k) in w.into_iter().zip(*K) {
        let t1 = sum([h, large_sigma_1(e), ch(e, f, g), k, word]);
        let t2 = sum([large_sigma_0(a), maj(a, b, c)]);
        (a, b, c, d, e, f, g, h) = (sum([t1, t2]), a, b, c, sum([d, t1]), e, f, g);
    }
    let worked = [a, b, c, d, e, f, g, h];
    std::array::from_fn(|i| value[i].wrapping_add(worked[i]))
}

#[cfg(test)]
mod tests {
    use super::*;
    use crate::hash::Hash;
    use crate::unhex;

    /// The first and the last words that the standard prints.
    #[test]
    fn constants() {
        assert_eq!((INITIAL[0], INITIAL[7]), (0x6a09e667, 0x5be0cd19));
        assert_eq!((K[0], K[1], K[31], K[63]), (0x428a2f98, 0x71374491, 0x14292967, 0xc67178f2));
    }

    fn gives(text: &[u8], digits: &str) {
        assert_eq!(Hash::Sha256.digest(text), unhex(digits));
    }

    #[test]
    fn fips_180_examples() {
        gives(b"", "e3b0c44298fc1c149afbf4c8996fb92427ae41e4649b934ca495991b7852b855");
        gives(b"abc", "ba7816bf8f01cfea414140de5dae2223b00361a396177a9cb410ff61f20015ad");
        let bits_448 = b"abcdbcdecdefdefgefghfghighijhijkijkljklmklmnlmnomnopnopq";
        gives(bits_448, "248d6a61d20638b8e5c026930c3e6039a33ce45964ff2167f6ecedd419db06c1");
        let bits_896 =
            b"abcdefghbcdefghicdefghijdefghijkefghijklfghijklmghijklmnhijklmnoijklmnopjklmnopqklmnopqrlmnopqrs\
            mnopqrstnopqrstu";
        assert_eq!((8 * bits_448.len(), 8 * bits_896.len()), (448, 896));
        gives(bits_896, "cf5b16a778af8380036ce59e7b0492370b249b11e8f07a51afac45037afee9d1");
        gives(&[b'a'; 1_000_000], "cdc76e5c9914fb9281a1c7e284d73e67f1809a48a497200e046d39ccc7112cd0");
    }
}
