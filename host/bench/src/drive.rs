//! Our drives in memory, made and used by the library's calls.

use mivrozh::{raw, Profile};

pub const PASSPHRASE: &[u8] = b"passphrase";
const SALT: [u8; 32] = [7; 32];

pub struct Drive {
    image: Vec<u8>,
    key: Vec<u8>,
    random: Vec<u8>,
    list: Vec<u8>,
    count: u32,
    header: Vec<u8>,
}

/// Bytes of the list of an addition: 516 for each sector of the area and for the two of the header.
fn list_length(random: &[u8], key: &[u8]) -> usize {
    ((random.len() + key.len()).div_ceil(512) + 2) * 516
}

fn accepted(call: &str, number: u8) -> Result<(), String> {
    if number == 0 {
        Ok(())
    } else {
        Err(format!("{call} is refused by {number}"))
    }
}

impl Drive {
    /// A drive with so many stripes a slot and so many payload units; at one stripe nothing but derivations takes time.
    /// Slots have this count, the first has a passphrase.
    pub fn new(profile: Profile, stripes: u32, count: u32, units: usize) -> Result<Drive, String> {
        let key: Vec<u8> = (0..profile.key_bytes() as u8).collect();
        let random = vec![0x11; (stripes as usize - 1) * key.len()];
        let start = if stripes == 1 { 2048 } else { 4096 };
        let mut image = vec![0x5a; (start + units) * 512];
        accepted("format", raw::format(&mut image, profile.number(), stripes, &key, &SALT, 1000, &[b'u'; 36], &mut 0))?;
        let mut list = vec![0; list_length(&random, &key)];
        accepted("add", raw::add(&mut image, 1, &key, PASSPHRASE, &SALT, count, &random, &mut list, &mut 0))?;
        let header = image[..1024].to_vec();
        Ok(Drive { image, key, random, list, count, header })
    }

    /// Adds a passphrase in slot 2.
    pub fn add(&mut self) -> Result<(), String> {
        let Drive { image, key, random, list, count, .. } = self;
        accepted("add", raw::add(image, 2, key, b"second", &SALT, *count, random, list, &mut 0))
    }

    /// Slot 2 is free again.
    pub fn take_back(&mut self) {
        self.image[..1024].copy_from_slice(&self.header);
    }

    pub fn open(&self) -> Result<(), String> {
        open(&self.image, PASSPHRASE).map(|_| ())
    }

    pub fn read(&self, units: usize, buffer: &mut [u8]) -> Result<(), String> {
        accepted("read", raw::read(&self.image, &self.key, 0, units as u64, &mut buffer[..units * 512], &mut 0))
    }

    pub fn write(&mut self, units: usize, buffer: &[u8]) -> Result<(), String> {
        accepted("write", raw::write(&mut self.image, &self.key, 0, units as u64, &buffer[..units * 512], &mut 0))
    }
}

/// The key that the passphrase opens.
pub fn open(image: &[u8], passphrase: &[u8]) -> Result<Vec<u8>, String> {
    let mut opened = [0; 66];
    accepted("open", raw::open(image, passphrase, &mut opened, &mut 0))?;
    Ok(opened[2..2 + opened[1] as usize].to_vec())
}

/// What luksAddKey does: opens with one passphrase, and puts the key under another into slot 2.
pub fn open_and_add(image: &[u8], passphrase: &[u8], new: &[u8], count: u32, random: &[u8]) -> Result<(), String> {
    let mut changed = image.to_vec();
    let key = open(image, passphrase)?;
    let mut list = vec![0; list_length(random, &key)];
    accepted("add", raw::add(&mut changed, 2, &key, new, &SALT, count, random, &mut list, &mut 0))
}
