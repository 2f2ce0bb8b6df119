//! AES with keys of 16 and 32 bytes, FIPS 197. The tables are computed from the field, section 4.

use std::sync::LazyLock;

/// Section 4.2: the product in GF(2^8), by repeated doubling.
pub fn product(a: u8, b: u8) -> u8 {
    let (mut a, mut sum) = (a, 0);
    for bit in 0..8 {
        if b >> bit & 1 == 1 {
            sum ^= a;
        }
        a = (a << 1) ^ if a & 0x80 != 0 { 0x1b } else { 0 };
    }
    sum
}

/// Section 4.4: the multiplicative inverse, 0 for 0.
fn inverse(a: u8) -> u8 {
    (0..=255).find(|b| product(a, *b) == 1).unwrap_or(0)
}

/// Section 5.1.1: bit i of the result is the sum of bits i, i+4, i+5, i+6 and i+7 of b, and of 0x63.
fn affine(b: u8) -> u8 {
    let bit = |i: u32| b >> (i % 8) & 1;
    (0..8).fold(0, |sum, i| sum | (bit(i) ^ bit(i + 4) ^ bit(i + 5) ^ bit(i + 6) ^ bit(i + 7) ^ (0x63 >> i & 1)) << i)
}

struct Tables {
    sbox: [u8; 256],
    inverse_sbox: [u8; 256],
    /// `times[c][b]` is the product of c and b, for the coefficients of the column mixing.
    times: [[u8; 256]; 16],
}

static TABLES: LazyLock<Tables> = LazyLock::new(|| {
    let sbox: [u8; 256] = std::array::from_fn(|b| affine(inverse(b as u8)));
    let mut inverse_sbox = [0; 256];
    for (b, s) in sbox.iter().enumerate() {
        inverse_sbox[*s as usize] = b as u8;
    }
    let times = std::array::from_fn(|c| std::array::from_fn(|b| product(c as u8, b as u8)));
    Tables { sbox, inverse_sbox, times }
});

type State = [u8; 16];

/// A key's round keys, of 16 bytes each.
pub struct Aes {
    rounds: Vec<State>,
}

impl Aes {
    /// Section 5.2: the key expansion.
    pub fn new(key: &[u8]) -> Aes {
        let nk = key.len() / 4;
        assert!(key.len() == 16 || key.len() == 32, "an AES key has 16 or 32 bytes here");
        let sub = |w: [u8; 4]| w.map(|b| TABLES.sbox[b as usize]);
        let mut words: Vec<[u8; 4]> = key.chunks_exact(4).map(|c| [c[0], c[1], c[2], c[3]]).collect();
        let mut constant = 1;
        for i in nk..4 * (nk + 7) {
            let mut t = words[i - 1];
            if i % nk == 0 {
                t = sub([t[1], t[2], t[3], t[0]]);
                t[0] ^= constant;
                constant = product(constant, 2);
            } else if nk > 6 && i % nk == 4 {
                t = sub(t);
            }
            let before = words[i - nk];
            words.push(std::array::from_fn(|k| before[k] ^ t[k]));
        }
        let rounds = words.chunks_exact(4).map(|four| std::array::from_fn(|i| four[i / 4][i % 4])).collect();
        Aes { rounds }
    }

    /// Section 5.1: the cipher.
    pub fn encrypt(&self, block: State) -> State {
        let last = self.rounds.len() - 1;
        let mut s = add(block, self.rounds[0]);
        for (r, key) in self.rounds.iter().enumerate().skip(1) {
            s = shift_rows(s.map(|b| TABLES.sbox[b as usize]), 1);
            if r < last {
                s = mix(s, [2, 3, 1, 1]);
            }
            s = add(s, *key);
        }
        s
    }

    /// Section 5.3: the inverse cipher.
    pub fn decrypt(&self, block: State) -> State {
        let last = self.rounds.len() - 1;
        let mut s = add(block, self.rounds[last]);
        for r in (0..last).rev() {
            s = shift_rows(s, 3).map(|b| TABLES.inverse_sbox[b as usize]);
            s = add(s, self.rounds[r]);
            if r > 0 {
                s = mix(s, [14, 11, 13, 9]);
            }
        }
        s
    }
}

fn add(a: State, b: State) -> State {
    std::array::from_fn(|i| a[i] ^ b[i])
}

/// Row r, the bytes r, r+4, r+8 and r+12, is turned left by r times `by`: 1 shifts, 3 shifts back.
fn shift_rows(s: State, by: usize) -> State {
    std::array::from_fn(|i| s[(i + 4 * by * (i % 4)) % 16])
}

/// Each column is multiplied by the circulant matrix with this first row.
fn mix(s: State, row: [u8; 4]) -> State {
    std::array::from_fn(|i| {
        let column = &s[i - i % 4..i - i % 4 + 4];
        (0..4).fold(0, |sum, k| sum ^ TABLES.times[row[(k + 4 - i % 4) % 4] as usize][column[k] as usize])
    })
}

#[cfg(test)]
mod tests {
    use super::*;
    use crate::unhex;

    #[test]
    fn field_and_substitution() {
        assert_eq!(product(0x57, 0x13), 0xfe);
        assert_eq!(product(0x80, 2), 0x1b);
        assert_eq!((TABLES.sbox[0], TABLES.sbox[0x53], TABLES.inverse_sbox[0xed]), (0x63, 0xed, 0x53));
    }

    fn enciphers(key: &str, plain: &str, cipher: &str) {
        let aes = Aes::new(&unhex(key));
        let (plain, cipher): (State, State) = (unhex(plain).try_into().unwrap(), unhex(cipher).try_into().unwrap());
        assert_eq!(aes.encrypt(plain), cipher);
        assert_eq!(aes.decrypt(cipher), plain);
    }

    #[test]
    fn fips_197_appendices() {
        let plain = "00112233445566778899aabbccddeeff";
        enciphers(
            "2b7e151628aed2a6abf7158809cf4f3c",
            "3243f6a8885a308d313198a2e0370734",
            "3925841d02dc09fbdc118597196a0b32",
        );
        enciphers("000102030405060708090a0b0c0d0e0f", plain, "69c4e0d86a7b0430d8cdb78070b4c55a");
        let key = "000102030405060708090a0b0c0d0e0f101112131415161718191a1b1c1d1e1f";
        enciphers(key, plain, "8ea2b7ca516745bfeafc49904b496089");
    }
}
