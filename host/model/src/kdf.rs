//! HMAC (RFC 2104) and PBKDF2 (RFC 8018, section 5.2), over either hash. PBKDF2 counts the HMAC values that it makes: 02, Wish 6.

use crate::hash::{Hash, BLOCK};

/// The two hash values of an HMAC key, after its inner and its outer padded block.
pub struct HmacKey {
    hash: Hash,
    inner: Vec<u32>,
    outer: Vec<u32>,
}

impl HmacKey {
    /// A key over 64 bytes is hashed first; a shorter one is padded with zeros.
    pub fn new(hash: Hash, key: &[u8]) -> HmacKey {
        let mut block = if key.len() > BLOCK { hash.digest(key) } else { key.to_vec() };
        block.resize(BLOCK, 0);
        let after = |pad: u8| {
            let padded: Vec<u8> = block.iter().map(|b| b ^ pad).collect();
            hash.compress(&hash.initial(), &padded)
        };
        HmacKey { hash, inner: after(0x36), outer: after(0x5c) }
    }

    pub fn of(&self, text: &[u8]) -> Vec<u8> {
        let inner = self.hash.resume(&self.inner, BLOCK, text);
        self.hash.resume(&self.outer, BLOCK, &inner)
    }
}

/// An HMAC key that counts the values made with it.
struct Counting {
    key: HmacKey,
    made: u64,
}

impl Counting {
    fn of(&mut self, text: &[u8]) -> Vec<u8> {
        self.made += 1;
        self.key.of(text)
    }
}

/// F of RFC 8018: the exclusive or of `count` values, each the HMAC of the one before.
fn block(key: &mut Counting, salt: &[u8], count: u32, number: u32) -> Vec<u8> {
    let mut value = key.of(&[salt, &number.to_be_bytes()].concat());
    let mut sum = value.clone();
    for _ in 1..count {
        value = key.of(&value);
        for (s, v) in sum.iter_mut().zip(&value) {
            *s ^= v;
        }
    }
    sum
}

/// PBKDF2 with blocks of a digest's length, numbered from 1, the last cropped; and how many HMAC values it made. `count` is at
/// least 1.
pub fn pbkdf2(hash: Hash, password: &[u8], salt: &[u8], count: u32, length: usize) -> (Vec<u8>, u64) {
    assert!(count >= 1, "PBKDF2 is not defined for count 0");
    let mut key = Counting { key: HmacKey::new(hash, password), made: 0 };
    let mut derived = Vec::new();
    for number in 1..=length.div_ceil(hash.size()) as u32 {
        derived.extend_from_slice(&block(&mut key, salt, count, number));
    }
    derived.truncate(length);
    (derived, key.made)
}

#[cfg(test)]
mod tests {
    use super::*;
    use crate::unhex;

    const LARGER: &[u8] = b"Test Using Larger Than Block-Size Key - Hash Key First";

    #[test]
    fn rfc_2202() {
        let gives = |key: &[u8], text: &[u8], digits: &str| {
            assert_eq!(HmacKey::new(Hash::Sha1, key).of(text), unhex(digits));
        };
        gives(&[0x0b; 20], b"Hi There", "b617318655057264e28bc0b6fb378c8ef146be00");
        gives(b"Jefe", b"what do ya want for nothing?", "effcdf6ae5eb2fa2d27416d5f184df9c259a7c79");
        gives(&[0xaa; 20], &[0xdd; 50], "125d7342b9ac11cd91a39af48aa17b4f63f175d3");
        let counting: Vec<u8> = (1..=25).collect();
        gives(&counting, &[0xcd; 50], "4c9007f4026250c6bc8414f9bf50c86c2d7235da");
        gives(&[0x0c; 20], b"Test With Truncation", "4c1a03424b55e07fe7f27be1d58bb9324a9a5a04");
        gives(&[0xaa; 80], LARGER, "aa4ae5e15272d00e95705637ce8a3b55ed402112");
        let both = b"Test Using Larger Than Block-Size Key and Larger Than One Block-Size Data";
        gives(&[0xaa; 80], both, "e8e99d0f45237d786d6bbaa7965c7808bbff1a91");
    }

    /// All seven test cases; of the fifth the standard has the first 128 bits.
    #[test]
    fn rfc_4231() {
        let gives = |key: &[u8], text: &[u8], digits: &str| {
            let expected = unhex(digits);
            assert_eq!(HmacKey::new(Hash::Sha256, key).of(text)[..expected.len()], expected);
        };
        gives(&[0x0b; 20], b"Hi There", "b0344c61d8db38535ca8afceaf0bf12b881dc200c9833da726e9376c2e32cff7");
        let jefe = b"what do ya want for nothing?";
        gives(b"Jefe", jefe, "5bdcc146bf60754e6a042426089575c75a003f089d2739839dec58b964ec3843");
        gives(&[0xaa; 20], &[0xdd; 50], "773ea91e36800e46854db8ebd09181a72959098b3ef8c122d9635514ced565fe");
        let counting: Vec<u8> = (1..=25).collect();
        gives(&counting, &[0xcd; 50], "82558a389a443c0ea4cc819899f2083a85f0faa3e578f8077a2e3ff46729665b");
        gives(&[0x0c; 20], b"Test With Truncation", "a3b6167473100ee06e0c796c2955552b");
        gives(&[0xaa; 131], LARGER, "60e431591ee0b67f0d8a26aacbf5b77f8e0bc6213728c5140546040f0ee37f54");
        let both =
            b"This is a test using a larger than block-size key and a larger than block-size data. The key needs \
            to be hashed before being used by the HMAC algorithm.";
        gives(&[0xaa; 131], both, "9b09ffa71b942fcb27635fbcd5b0e944bfdc63644f0713938a7f51535c3a35e2");
    }

    fn derives(hash: Hash, password: &[u8], salt: &[u8], count: u32, digits: &str) {
        let expected = unhex(digits);
        assert_eq!(pbkdf2(hash, password, salt, count, expected.len()).0, expected);
    }

    /// 02, Wish 6: c x m / D values, the quotient rounded up before the product.
    #[test]
    fn figures_of_values() {
        let makes = |hash, count, length| pbkdf2(hash, b"key", b"salt", count, length).1;
        assert_eq!(makes(Hash::Sha1, 1000, 20), 1000);
        assert_eq!(makes(Hash::Sha1, 1000, 32), 2000);
        assert_eq!(makes(Hash::Sha1, 1000, 64), 4000);
        assert_eq!(makes(Hash::Sha256, 1000, 20), 1000);
        assert_eq!(makes(Hash::Sha256, 1000, 32), 1000);
        assert_eq!(makes(Hash::Sha256, 1000, 64), 2000);
        assert_eq!(makes(Hash::Sha1, 1001, 32), 2002, "not 1,602");
        assert_eq!(makes(Hash::Sha1, 1, 1), 1);
    }

    #[test]
    fn rfc_6070() {
        let gives = |p: &[u8], s: &[u8], c: u32, digits: &str| derives(Hash::Sha1, p, s, c, digits);
        gives(b"password", b"salt", 1, "0c60c80f961f0e71f3a9b524af6012062fe037a6");
        gives(b"password", b"salt", 2, "ea6c014dc72d6f8ccd1ed92ace1d41f0d8de8957");
        gives(b"password", b"salt", 4096, "4b007901b765489abead49d926f721d065a429c1");
        let (long, salt) = (b"passwordPASSWORDpassword", b"saltSALTsaltSALTsaltSALTsaltSALTsalt");
        gives(long, salt, 4096, "3d2eec4fe41c849b80c8d83662c0e44a8b291a964cf2f07038");
        gives(b"pass\0word", b"sa\0lt", 4096, "56fa6aa75548099dcc37d7f03425e0c3");
    }

    #[test]
    fn rfc_7914_section_11() {
        let gives = |p: &[u8], s: &[u8], c: u32, digits: &str| derives(Hash::Sha256, p, s, c, digits);
        let first = "
            55ac046e56e3089fec1691c22544b605f94185216dde0465e68b9d57c20dacbc
            49ca9cccf179b645991664b39d77ef317c71b845b1e30bd509112041d3a19783
        ";
        gives(b"passwd", b"salt", 1, first);
        let second = "
            4ddcd8f60b98be21830cee5ef22701f9641a4418d04c0414aeff08876b34ab56
            a1d425a1225833549adb841b51c9b3176a272bdebba1d078478f62b397f33c8d
        ";
        gives(b"Password", b"NaCl", 80_000, second);
    }

    /// A block is as long as a digest: a checksum of 20 bytes is cropped from SHA-256's first block.
    #[test]
    fn the_last_block_is_cropped() {
        for hash in Hash::ALL {
            let (whole, _) = pbkdf2(hash, b"key", b"salt", 3, 64);
            for length in [1, 20, 32, 40, 63] {
                assert_eq!(pbkdf2(hash, b"key", b"salt", 3, length).0, whole[..length]);
            }
        }
    }
}
