//! Key slots: filling an area and its record, emptying them, and an area's candidate. LUKS 1.2.2, section 4.

use crate::hash::{Hash, BLOCK};
use crate::header::{put, Header, Slot, DISABLED, ENABLED};
use crate::kdf::pbkdf2;
use crate::splitter;
use crate::xts::{self, Way, SECTOR};
use std::collections::HashMap;

/// What a derivation starts from: hash, password, salt, count and length.
type Start = (Hash, Vec<u8>, [u8; 32], u32, usize);

/// PBKDF2 with its results remembered, since one passphrase or key is tried again and again; and with each the number of HMAC
/// values that it made, which counts every time.
#[derive(Default)]
pub struct Derivations {
    known: HashMap<Start, (Vec<u8>, u64)>,
    /// The HMAC values of all derivations asked for so far.
    values: u64,
}

impl Derivations {
    const MOST: usize = 20_000;

    pub fn derive(&mut self, hash: Hash, password: &[u8], salt: &[u8; 32], count: u32, length: usize) -> Vec<u8> {
        if self.known.len() >= Self::MOST {
            self.known.clear();
        }
        let derive = || pbkdf2(hash, password, salt, count, length);
        let start = (hash, password.to_vec(), *salt, count, length);
        let (derived, made) = self.known.entry(start).or_insert_with(derive);
        self.values += *made;
        derived.clone()
    }

    /// The HMAC values of the derivations that were asked for since this was called before.
    pub fn take_values(&mut self) -> u64 {
        std::mem::take(&mut self.values)
    }

    /// The checksum of a key: 20 bytes, whatever the hash.
    pub fn checksum(&mut self, hash: Hash, key: &[u8], salt: &[u8; 32], count: u32) -> Vec<u8> {
        self.derive(hash, key, salt, count, 20)
    }

    /// Does the key have the header's checksum? Not under a hash that is none, or count 0, for which there is none.
    pub fn has_checksum(&mut self, header: &Header, key: &[u8]) -> bool {
        let count = header.count;
        header.hash().is_some_and(|hash| count != 0 && self.checksum(hash, key, &header.salt, count) == header.checksum)
    }

    /// The stripes in a slot's area, deciphered. None where the record or the area admits no such thing.
    pub fn stripes(&mut self, image: &[u8], header: &Header, slot: &Slot, passphrase: &[u8]) -> Option<Vec<u8>> {
        let hash = header.hash()?;
        let (begin, end) = slot.area(header.key_bytes);
        if ![32, 64].contains(&header.key_bytes) || slot.count == 0 || end > image.len() as u128 || begin == end {
            return None;
        }
        let key = self.derive(hash, passphrase, &slot.salt, slot.count, header.key_bytes as usize);
        let mut area = image[begin as usize..end as usize].to_vec();
        xts::run(&key, 0, &mut area, Way::Decipher);
        Some(area)
    }

    /// The merged decryption of a slot's area, if it has the header's checksum.
    pub fn candidate(&mut self, image: &[u8], header: &Header, slot: &Slot, passphrase: &[u8]) -> Option<Vec<u8>> {
        let stripes = self.stripes(image, header, slot, passphrase)?;
        let key = splitter::merge(header.hash()?, &stripes, header.key_bytes as usize);
        self.has_checksum(header, &key).then_some(key)
    }

    /// Splits the key into slot k's area, enciphers it there and enables the record.
    #[allow(clippy::too_many_arguments)]
    pub fn fill(
        &mut self,
        image: &mut [u8],
        k: u8,
        key: &[u8],
        passphrase: &[u8],
        salt: &[u8; 32],
        count: u32,
        random: &[u8],
    ) {
        let header = Header::read(image);
        let hash = header.hash().expect("a header with a known hash");
        let slot = header.slots[k as usize - 1].clone();
        let mut area = splitter::split(hash, key, random);
        let area_key = self.derive(hash, passphrase, salt, count, key.len());
        xts::run(&area_key, 0, &mut area, Way::Encipher);
        put(image, slot.start as usize * SECTOR, &area);
        Slot { state: ENABLED, count, salt: *salt, ..slot }.write(image, k as usize);
    }
}

/// Puts filler into slot k's area and disables the record; its start and stripes stay.
pub fn empty(image: &mut [u8], k: u8, filler: &[u8]) {
    let slot = Header::read(image).slots[k as usize - 1].clone();
    put(image, slot.start as usize * SECTOR, filler);
    Slot { state: DISABLED, count: 0, salt: [0; 32], ..slot }.write(image, k as usize);
}

/// A passphrase as long as a digest that derives the same keys as this one of more than 64 bytes: HMAC hashes those
/// first.
pub fn short_equal(hash: Hash, long: &[u8]) -> Vec<u8> {
    assert!(long.len() > BLOCK);
    hash.digest(long)
}
