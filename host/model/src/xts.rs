//! XTS-AES on whole blocks, IEEE 1619, and runs of data units as the scope document counts them.

use crate::aes::Aes;

/// The bytes of a sector and of a full data unit.
pub const SECTOR: usize = 512;

#[derive(Clone, Copy, PartialEq)]
pub enum Way {
    Encipher,
    Decipher,
}

/// The tweak as a little-endian number times the field's primitive element.
pub fn double(tweak: [u8; 16]) -> [u8; 16] {
    let number = u128::from_le_bytes(tweak);
    let carry = if number >> 127 == 1 { 0x87 } else { 0 };
    ((number << 1) ^ carry).to_le_bytes()
}

/// One data unit, in place. Its length is a multiple of 16.
fn unit(blocks: &Aes, mut tweak: [u8; 16], bytes: &mut [u8], way: Way) {
    assert!(bytes.len().is_multiple_of(16), "a data unit is whole blocks");
    for block in bytes.chunks_exact_mut(16) {
        let masked = std::array::from_fn(|i| block[i] ^ tweak[i]);
        let worked = if way == Way::Encipher { blocks.encrypt(masked) } else { blocks.decrypt(masked) };
        block.iter_mut().zip(worked.iter().zip(tweak)).for_each(|(b, (w, t))| *b = w ^ t);
        tweak = double(tweak);
    }
}

/// Data units of 512 bytes, the last maybe shorter, numbered from `first`. The first half of the key is for the
/// blocks, the second for the tweak.
pub fn run(key: &[u8], first: u64, bytes: &mut [u8], way: Way) {
    let (blocks, tweaks) = (Aes::new(&key[..key.len() / 2]), Aes::new(&key[key.len() / 2..]));
    for (number, part) in (first..).zip(bytes.chunks_mut(SECTOR)) {
        unit(&blocks, tweaks.encrypt((number as u128).to_le_bytes()), part, way);
    }
}

#[cfg(test)]
mod tests {
    use super::*;
    use crate::unhex;

    fn enciphers(key: &str, number: u64, plain: &[u8], cipher: &str) {
        let (key, cipher, mut bytes) = (unhex(key), unhex(cipher), plain.to_vec());
        run(&key, number, &mut bytes, Way::Encipher);
        assert_eq!(bytes, cipher);
        run(&key, number, &mut bytes, Way::Decipher);
        assert_eq!(bytes, plain);
    }

    #[test]
    fn doubling() {
        let with = |i: usize, b: u8| std::array::from_fn(|k| if k == i { b } else { 0 });
        assert_eq!(double(with(0, 1)), with(0, 2));
        assert_eq!(double(with(15, 128)), with(0, 0x87));
    }

    #[test]
    fn ieee_1619_vectors_1_and_2() {
        let first = "917cf69ebd68b2ec9b9fe9a3eadda692cd43d2f59598ed858c02c2652fbf922e";
        enciphers(&"00".repeat(32), 0, &[0; 32], first);
        let key = "1111111111111111111111111111111122222222222222222222222222222222";
        enciphers(key, 0x3333333333, &[0x44; 32], "c454185e6a16936e39334038acef838bfb186fff7480adc4289382ecd6d394f0");
    }

    #[test]
    fn ieee_1619_vector_4() {
        let key = "2718281828459045235360287471352631415926535897932384626433832795";
        let plain: Vec<u8> = (0..=255).chain(0..=255).collect();
        enciphers(key, 0, &plain, VECTOR_4);
    }

    #[test]
    fn ieee_1619_vector_11() {
        let plain: Vec<u8> = (0..=255).chain(0..=255).collect();
        enciphers(KEY_11, 0xffff, &plain, VECTOR_11);
    }

    const KEY_11: &str = "
        2718281828459045235360287471352662497757247093699959574966967627
        3141592653589793238462643383279502884197169399375105820974944592
    ";

    const VECTOR_4: &str = "
        27a7479befa1d476489f308cd4cfa6e2a96e4bbe3208ff25287dd3819616e89c
        c78cf7f5e543445f8333d8fa7f56000005279fa5d8b5e4ad40e736ddb4d35412
        328063fd2aab53e5ea1e0a9f332500a5df9487d07a5c92cc512c8866c7e860ce
        93fdf166a24912b422976146ae20ce846bb7dc9ba94a767aaef20c0d61ad0265
        5ea92dc4c4e41a8952c651d33174be51a10c421110e6d81588ede82103a252d8
        a750e8768defffed9122810aaeb99f9172af82b604dc4b8e51bcb08235a6f434
        1332e4ca60482a4ba1a03b3e65008fc5da76b70bf1690db4eae29c5f1badd03c
        5ccf2a55d705ddcd86d449511ceb7ec30bf12b1fa35b913f9f747a8afd1b130e
        94bff94effd01a91735ca1726acd0b197c4e5b03393697e126826fb6bbde8ecc
        1e08298516e2c9ed03ff3c1b7860f6de76d4cecd94c8119855ef5297ca67e9f3
        e7ff72b1e99785ca0a7e7720c5b36dc6d72cac9574c8cbbc2f801e23e56fd344
        b07f22154beba0f08ce8891e643ed995c94d9a69c9f1b5f499027a78572aeebd
        74d20cc39881c213ee770b1010e4bea718846977ae119f7a023ab58cca0ad752
        afe656bb3c17256a9f6e9bf19fdd5a38fc82bbe872c5539edb609ef4f79c203e
        bb140f2e583cb2ad15b4aa5b655016a8449277dbd477ef2c8d6c017db738b18d
        eb4a427d1923ce3ff262735779a418f20a282df920147beabe421ee5319d0568
    ";

    const VECTOR_11: &str = "
        77a31251618a15e6b92d1d66dffe7b50b50bad552305ba0217a610688eff7e11
        e1d0225438e093242d6db274fde801d4cae06f2092c728b2478559df58e837c2
        469ee4a4fa794e4bbc7f39bc026e3cb72c33b0888f25b4acf56a2a9804f1ce6d
        3d6e1dc6ca181d4b546179d55544aa7760c40d06741539c7e3cd9d2f6650b201
        3fd0eeb8c2b8e3d8d240ccae2d4c98320a7442e1c8d75a42d6e6cfa4c2eca179
        8d158c7aecdf82490f24bb9b38e108bcda12c3faf9a21141c3613b58367f922a
        aa26cd22f23d708dae699ad7cb40a8ad0b6e2784973dcb605684c08b8d6998c6
        9aac049921871ebb65301a4619ca80ecb485a31d744223ce8ddc2394828d6a80
        470c092f5ba413c3378fa6054255c6f9df4495862bbb3287681f931b687c888a
        bf844dfc8fc28331e579928cd12bd2390ae123cf03818d14dedde5c0c24c8ab0
        18bfca75ca096f2d531f3d1619e785f1ada437cab92e980558b3dce1474afb75
        bfedbf8ff54cb2618e0244c9ac0d3c66fb51598cd2db11f9be39791abe447c63
        094f7c453b7ff87cb5bb36b7c79efb0872d17058b83b15ab0866ad8a58656c5a
        7e20dbdf308b2461d97c0ec0024a2715055249cf3b478ddd4740de654f75ca68
        6e0d7345c69ed50cdc2a8b332b1f8824108ac937eb050585608ee734097fc090
        54fbff89eeaeea791f4a7ab1f9868294a4f9e27b42af8100cb9d59cef9645803
    ";
}
