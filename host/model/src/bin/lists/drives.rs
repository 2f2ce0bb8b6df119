//! Drives to call upon: foreign ones, laid out as no format of ours would, those with an old payload start, and what the
//! test knows of a drive.

use crate::random::Random;
use model::header::{at, layout, put, put_number, Header, Profile, Slot, ALIGNMENT, DISABLED, MAGIC, PROFILES};
use model::slots::Derivations;
use model::xts::SECTOR;
use model::{Call, Model};

/// An image, the key of its checksum, and for each slot the passphrase that opened it last.
#[derive(Clone)]
pub struct Drive {
    pub image: Vec<u8>,
    pub key: Vec<u8>,
    pub passphrases: [Option<Vec<u8>>; 8],
}

impl Drive {
    pub fn header(&self) -> Header {
        Header::read(&self.image)
    }

    /// Takes over what an accepted call means for key and passphrases.
    pub fn learn(&mut self, call: &Call) {
        match call {
            Call::Format { key, .. } => {
                self.key = key.clone();
                self.passphrases = Default::default();
            }
            Call::Add { slot, passphrase, .. } => self.passphrases[*slot as usize - 1] = Some(passphrase.clone()),
            Call::Change { from, to, new, .. } => {
                self.passphrases[*from as usize - 1] = None;
                self.passphrases[*to as usize - 1] = Some(new.clone());
            }
            Call::Revoke { slot, .. } => self.passphrases[*slot as usize - 1] = None,
            _ => {}
        }
    }
}

/// Names with anything after their zero byte, magic, version, checksum: all of a header but its records and payload
/// start.
pub fn put_head(random: &mut Random, d: &mut Derivations, image: &mut [u8], profile: &Profile, key: &[u8]) {
    put(image, at::MAGIC, &MAGIC);
    put(image, at::VERSION, &[0, 1]);
    for (at, name) in at::NAMES.into_iter().zip(profile.names()) {
        put(image, at, name.as_bytes());
        image[at + name.len()] = 0;
    }
    let (salt, count) = (random.salt(), random.range(1, 3) as u32);
    put_number(image, at::KEY_BYTES, key.len() as u32);
    put(image, at::CHECKSUM, &d.checksum(profile.hash, key, &salt, count));
    put(image, at::SALT, &salt);
    put_number(image, at::COUNT, count);
}

/// Areas one after the other in random order, with gaps of 0 to 3 sectors; gives the payload start.
fn put_areas(random: &mut Random, image: &mut Vec<u8>, key_length: usize) -> u32 {
    let mut order: Vec<usize> = (1..=8).collect();
    for i in (1..8).rev() {
        order.swap(i, random.range(0, i));
    }
    let mut next = 2 + random.range(0, 1);
    for k in order {
        let stripes = random.range(1, 20);
        let sectors = (stripes * key_length).div_ceil(SECTOR);
        image.resize(image.len().max((next + sectors) * SECTOR), 0);
        let (count, salt) = (random.number() as u32, random.salt());
        Slot { state: DISABLED, count, salt, start: next as u32, stripes: stripes as u32 }.write(image, k);
        next += sectors + random.pick(&[0, 0, 0, 1, 3]);
    }
    next as u32
}

/// A drive of another maker: other starts, stripes that differ by slot, a payload that begins anywhere after the
/// areas, small counts, disabled records with any count and salt. Each slot is enabled with the given chance out of
/// 8.
pub fn foreign(random: &mut Random, d: &mut Derivations, profile: &Profile, key: &[u8], chance: u64) -> Drive {
    let mut image = random.bytes(2 * SECTOR);
    let payload = put_areas(random, &mut image, key.len()) + random.pick(&[0, 0, 1, 8]);
    put_number(&mut image, at::PAYLOAD, payload);
    put_head(random, d, &mut image, profile, key);
    let units = random.range(0, 6);
    image.resize(payload as usize * SECTOR, 0);
    let more = random.bytes(units * SECTOR);
    image.extend_from_slice(&more);
    let mut drive = Drive { image, key: key.to_vec(), passphrases: Default::default() };
    enable_some(random, d, &mut drive, chance);
    drive
}

/// A drive as format made it before payloads began on a mebibyte: the model makes it, with the payload right after area 8.
/// One in four is so long that it can be formatted anew. Each slot is enabled with the given chance out of 8.
pub fn old_start(random: &mut Random, profile: &Profile, key: &[u8], chance: u64) -> Drive {
    let call = fair_format(random, profile, key.to_vec());
    let alignment = if random.chance(1, 4) { ALIGNMENT } else { 1 };
    let image = image_for(random, &call, alignment);
    let mut model = Model::aligned(1);
    let made = model.step(&image, &call);
    assert_eq!(made.number, 0, "{call:?}");
    let mut drive = Drive { image: made.image, key: key.to_vec(), passphrases: Default::default() };
    enable_some(random, &mut model.derivations, &mut drive, chance);
    drive
}

/// A format that is accepted on an image that is long enough.
pub fn fair_format(random: &mut Random, profile: &Profile, key: Vec<u8>) -> Call {
    let uuid = (0..36).map(|_| random.range(33, 126) as u8).collect();
    let profile = profile.number;
    let stripes = random.range(1, 20) as u32;
    Call::Format { profile, stripes, key, salt: random.salt(), count: random.range(1000, 1003) as u32, uuid }
}

/// Random bytes for a fair format: up to the payload start of this alignment, and 0 to 6 units.
pub fn image_for(random: &mut Random, format: &Call, alignment: u64) -> Vec<u8> {
    let Call::Format { stripes, key, .. } = format else { unreachable!("a format") };
    let sectors = layout(*stripes, key.len(), alignment).1 as usize + random.range(0, 6);
    random.bytes(sectors * SECTOR)
}

fn enable_some(random: &mut Random, d: &mut Derivations, drive: &mut Drive, chance: u64) {
    for k in 1..=8 {
        if random.chance(chance, 8) {
            let passphrase = passphrase(random);
            enable(random, d, drive, k, &passphrase);
        }
    }
}

/// Fills and enables a slot with a small count.
pub fn enable(random: &mut Random, d: &mut Derivations, drive: &mut Drive, k: u8, passphrase: &[u8]) {
    let stripes = drive.header().slots[k as usize - 1].stripes as usize;
    let (salt, count) = (random.salt(), random.range(1, 3) as u32);
    let stripes_before = random.bytes((stripes - 1) * drive.key.len());
    d.fill(&mut drive.image, k, &drive.key, passphrase, &salt, count, &stripes_before);
    drive.passphrases[k as usize - 1] = Some(passphrase.to_vec());
}

/// A passphrase that is allowed: mostly short, some longer than a block of the hash, some as long as can be.
pub fn passphrase(random: &mut Random) -> Vec<u8> {
    let length = match random.range(0, 9) {
        0 => 512,
        1 => random.range(63, 66),
        2 => random.range(67, 511),
        _ => random.range(1, 30),
    };
    random.bytes(length)
}

/// One of the profiles, and a key of its length.
pub fn profile_and_key(random: &mut Random) -> (&'static Profile, Vec<u8>) {
    let profile = &PROFILES[random.range(0, PROFILES.len() - 1)];
    (profile, random.bytes(profile.key_bytes))
}
