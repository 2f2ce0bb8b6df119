//! The stored drive crates/drives/data/luks1-start-65.img, which format made before payloads began on a mebibyte: every
//! byte of it is built again here, by the model, with the payload right after area 8.

use model::{Call, Model};
use std::path::Path;

const STRIPES: u32 = 15;
const COUNT: u32 = 1000;
const UNITS: u64 = 8;
/// Sectors of the payload start and of the whole drive.
const PAYLOAD: usize = 65;
const SECTORS: usize = PAYLOAD + UNITS as usize;
const UUID: &[u8] = b"6d69767a-6f68-4256-8000-000000000065";
/// The slots in use, with the passphrases of tools/make_drives.sh.
const SLOTS: [(u8, &str); 4] = [
    (1, "first passphrase"),
    (2, "second passphrase"),
    (4, "a fourth passphrase, which is longer than the sixty-four bytes of a block of SHA-1"),
    (8, "8"),
];

fn stored() -> Vec<u8> {
    let path = Path::new(env!("CARGO_MANIFEST_DIR")).join("../../crates/drives/data/luks1-start-65.img");
    std::fs::read(&path).unwrap_or_else(|error| panic!("{}: {error}", path.display()))
}

/// The volume key: the bytes 0, 1, 2, ..
fn key() -> Vec<u8> {
    (0..32).collect()
}

/// Byte i is i + 10 k; k is 0 for the checksum's salt, else the slot.
fn salt(k: u8) -> [u8; 32] {
    std::array::from_fn(|i| i as u8 + 10 * k)
}

/// The stripes before the last of slot k: byte i is 13 i + k modulo 251.
fn random(k: u8) -> Vec<u8> {
    (0..(STRIPES - 1) * 32).map(|i| ((13 * i + u32::from(k)) % 251) as u8).collect()
}

/// The plaintext of the payload: byte i is 7 i modulo 251.
fn plain() -> Vec<u8> {
    (0..UNITS * 512).map(|i| (7 * i % 251) as u8).collect()
}

/// The drive's calls: format, an add for each slot in use, and a write of the whole payload.
fn calls() -> Vec<Call> {
    let uuid = UUID.to_vec();
    let format = Call::Format { profile: 1, stripes: STRIPES, key: key(), salt: salt(0), count: COUNT, uuid };
    let adds = SLOTS.map(|(slot, passphrase)| {
        let passphrase = passphrase.as_bytes().to_vec();
        // The area's 480 bytes are one sector: three writes.
        let (random, list) = (random(slot), vec![0; 3 * model::writes::ENTRY]);
        Call::Add { slot, key: key(), passphrase, salt: salt(slot), count: COUNT, random, list }
    });
    let write = Call::Write { key: key(), first: 0, units: UNITS, buffer: plain() };
    std::iter::once(format).chain(adds).chain([write]).collect()
}

#[test]
fn the_stored_drive_is_what_its_calls_make_with_the_payload_right_after_area_8() {
    let mut model = Model::aligned(1);
    let built = calls().iter().fold(vec![0; SECTORS * 512], |image, call| {
        let out = model.step(&image, call);
        assert_eq!(out.number, 0, "{call:?}");
        out.image
    });
    let stored = stored();
    assert_eq!(stored.len(), built.len());
    let differs = stored.iter().zip(&built).position(|(stored, built)| stored != built);
    assert_eq!(differs, None, "the first byte that differs");
    assert_eq!(stored[104..108], (PAYLOAD as u32).to_be_bytes());
}
