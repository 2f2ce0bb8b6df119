//! The eight calls on an image: what each refuses, what it answers and the image afterwards.

use crate::header::{self, at, put, put_number, Header, Profile, Slot, DISABLED};
use crate::slots::{empty, Derivations};
use crate::writes;
use crate::xts::{self, Way, SECTOR};

/// A call with its arguments, other than the image. `list`, and the `buffer` of a read, are what the lent buffer holds
/// before.
#[derive(Clone, Debug, PartialEq)]
pub enum Call {
    Format {
        profile: u8,
        stripes: u32,
        key: Vec<u8>,
        salt: [u8; 32],
        count: u32,
        uuid: Vec<u8>,
    },
    Add {
        slot: u8,
        key: Vec<u8>,
        passphrase: Vec<u8>,
        salt: [u8; 32],
        count: u32,
        random: Vec<u8>,
        list: Vec<u8>,
    },
    OpenSlot {
        slot: u8,
        passphrase: Vec<u8>,
    },
    Open {
        passphrase: Vec<u8>,
    },
    Change {
        from: u8,
        old: Vec<u8>,
        to: u8,
        new: Vec<u8>,
        salt: [u8; 32],
        count: u32,
        random: Vec<u8>,
        filler: Vec<u8>,
        list: Vec<u8>,
    },
    Revoke {
        slot: u8,
        filler: Vec<u8>,
        list: Vec<u8>,
    },
    Read {
        key: Vec<u8>,
        first: u64,
        units: u64,
        buffer: Vec<u8>,
    },
    Write {
        key: Vec<u8>,
        first: u64,
        units: u64,
        buffer: Vec<u8>,
    },
}

pub const KINDS: [&str; 8] = ["format", "add", "open_slot", "open", "change", "revoke", "read", "write"];

impl Call {
    /// The place of the call's name in `KINDS`.
    pub fn kind(&self) -> usize {
        match self {
            Call::Format { .. } => 0,
            Call::Add { .. } => 1,
            Call::OpenSlot { .. } => 2,
            Call::Open { .. } => 3,
            Call::Change { .. } => 4,
            Call::Revoke { .. } => 5,
            Call::Read { .. } => 6,
            Call::Write { .. } => 7,
        }
    }

    /// What the buffer that the call may write holds before: nothing where it is lent none.
    pub fn lent(&self) -> &[u8] {
        match self {
            Call::Add { list, .. } | Call::Change { list, .. } | Call::Revoke { list, .. } => list,
            Call::Read { buffer, .. } => buffer,
            _ => &[],
        }
    }

    /// Lends an add, a change or a revoke another list buffer.
    pub fn lend_list(&mut self, bytes: Vec<u8>) {
        match self {
            Call::Add { list, .. } | Call::Change { list, .. } | Call::Revoke { list, .. } => *list = bytes,
            _ => panic!("the call has no list"),
        }
    }
}

/// What a call gives.
#[derive(Clone, Debug, PartialEq)]
pub struct Outcome {
    /// 0, or the number of the refusal.
    pub number: u8,
    /// How many HMAC values the call made, accepted or refused: 02, Wish 6.
    pub values: u64,
    /// Of an opening: slot, key length, the key and zeros to 64 bytes; all zero when refused, and for other calls.
    pub opened: [u8; 66],
    /// The lent buffer afterwards: of an add, change or revoke its list, of a read what was read.
    pub buffer: Vec<u8>,
    pub image: Vec<u8>,
}

/// The numbers of the checks that fail, in the order of the checks: up to the first, or all. And the slot with the candidate
/// that passed check 17, where that tries a passphrase: an accepted call goes on with it and derives nothing a second time.
struct Findings {
    all: bool,
    failing: Vec<u8>,
    opened: Option<(u8, Vec<u8>)>,
}

impl Findings {
    fn check(&mut self, number: u8, fails: impl FnOnce() -> bool) {
        if (self.all || self.failing.is_empty()) && fails() {
            self.failing.push(number);
        }
    }

    /// Check 17 of a passphrase, which fails where no slot and candidate are found.
    fn check_opening(&mut self, find: impl FnOnce() -> Option<(u8, Vec<u8>)>) {
        let mut found = None;
        self.check(17, || {
            found = find();
            found.is_none()
        });
        self.opened = found;
    }
}

fn bad_passphrase(passphrase: &[u8]) -> bool {
    !(1..=512).contains(&passphrase.len())
}

fn bad_uuid(uuid: &[u8]) -> bool {
    uuid.len() != 36 || uuid.iter().any(|b| !(33..=126).contains(b))
}

/// Check 16 refuses these bytes: they are not so many stripes.
fn not_stripes(bytes: &[u8], stripes: u32, key_bytes: u32) -> bool {
    bytes.len() as u128 != stripes as u128 * key_bytes as u128
}

/// Check 20 refuses this buffer: it is not exactly as long as the lists of the work on these slots.
fn not_list(list: &[u8], slots: &[&Slot], key_bytes: u32) -> bool {
    list.len() as u128 != slots.iter().map(|slot| writes::length(slot, key_bytes)).sum()
}

/// The units of the payload: none where it begins beyond the image.
fn payload_units(header: &Header, image_len: usize) -> u64 {
    (image_len as u64 / SECTOR as u64).saturating_sub(header.payload as u64)
}

pub struct Model {
    pub derivations: Derivations,
    /// Format's payload start is a multiple of so many sectors.
    pub alignment: u64,
}

impl Default for Model {
    fn default() -> Model {
        Model::aligned(header::ALIGNMENT)
    }
}

impl Model {
    /// A model whose format puts the payload on a multiple of so many sectors.
    pub fn aligned(alignment: u64) -> Model {
        Model { derivations: Derivations::default(), alignment }
    }

    /// The first number that refuses the call, or 0.
    pub fn number(&mut self, image: &[u8], call: &Call) -> u8 {
        self.checks(image, call, false).failing.first().copied().unwrap_or(0)
    }

    /// Every number whose check fails, in order. A check that speaks of a slot, profile or hash that is not there does
    /// not fail.
    pub fn failing(&mut self, image: &[u8], call: &Call) -> Vec<u8> {
        self.checks(image, call, true).failing
    }

    fn checks(&mut self, image: &[u8], call: &Call, all: bool) -> Findings {
        let mut f = Findings { all, failing: Vec::new(), opened: None };
        let h = Header::read(image);
        if let Call::Format { .. } = call {
            format_checks(&mut f, image.len(), call, self.alignment);
            return f;
        }
        for (number, refused) in h.refusals(image.len()) {
            f.check(number, || refused);
        }
        let d = &mut self.derivations;
        let hashed = h.hash().is_some();
        match call {
            Call::Format { .. } => unreachable!("judged above"),
            Call::Add { .. } => add_checks(&mut f, d, &h, call),
            Call::OpenSlot { slot, passphrase } => {
                let record = h.slot(*slot);
                f.check(13, || record.is_none());
                f.check(14, || bad_passphrase(passphrase));
                f.check(15, || record.is_some_and(|s| !s.enabled()));
                if let Some(s) = record.filter(|_| hashed) {
                    f.check_opening(|| d.candidate(image, &h, s, passphrase).map(|key| (*slot, key)));
                }
            }
            Call::Open { passphrase } => {
                f.check(14, || bad_passphrase(passphrase));
                if hashed {
                    f.check_opening(|| search(d, image, &h, passphrase));
                }
            }
            Call::Change { .. } => change_checks(&mut f, d, image, &h, call),
            Call::Revoke { .. } => revoke_checks(&mut f, &h, call),
            Call::Read { .. } | Call::Write { .. } => transfer_checks(&mut f, d, &h, image.len(), call),
        }
        f
    }

    /// The call's outcome. A refused call alters nothing. What checks and work derive is what the call made.
    pub fn step(&mut self, image: &[u8], call: &Call) -> Outcome {
        self.derivations.take_values();
        let found = self.checks(image, call, false);
        let number = found.failing.first().copied().unwrap_or(0);
        let (buffer, image) = (call.lent().to_vec(), image.to_vec());
        let mut out = Outcome { number, values: 0, opened: [0; 66], buffer, image };
        if number == 0 {
            self.accept(&mut out, call, found.opened);
        }
        out.values = self.derivations.take_values();
        out
    }

    /// An accepted call: `out` holds the image before, and then what the call gives.
    fn accept(&mut self, out: &mut Outcome, call: &Call, opened: Option<(u8, Vec<u8>)>) {
        let h = Header::read(&out.image);
        let passed = || opened.expect("check 17 passed");
        let d = &mut self.derivations;
        match call {
            Call::Format { .. } => format(d, &mut out.image, call, self.alignment),
            Call::Add { slot, key, passphrase, salt, count, random, .. } => {
                d.fill(&mut out.image, *slot, key, passphrase, salt, *count, random);
                out.buffer = list_of(&out.image, *slot);
            }
            Call::OpenSlot { .. } | Call::Open { .. } => {
                let (slot, key) = passed();
                out.opened = answer(slot, &key);
            }
            Call::Change { from, to, new, salt, count, random, filler, .. } => {
                let (_, key) = passed();
                d.fill(&mut out.image, *to, &key, new, salt, *count, random);
                out.buffer = list_of(&out.image, *to);
                empty(&mut out.image, *from, filler);
                out.buffer.extend(list_of(&out.image, *from));
            }
            Call::Revoke { slot, filler, .. } => {
                empty(&mut out.image, *slot, filler);
                out.buffer = list_of(&out.image, *slot);
            }
            Call::Read { .. } | Call::Write { .. } => transfer(out, &h, call),
        }
    }
}

/// An accepted read or write.
fn transfer(out: &mut Outcome, h: &Header, call: &Call) {
    match call {
        Call::Read { key, first, buffer, .. } => {
            let begin = (h.payload as u64 + first) as usize * SECTOR;
            out.buffer.copy_from_slice(&out.image[begin..begin + buffer.len()]);
            xts::run(key, *first, &mut out.buffer, Way::Decipher);
        }
        Call::Write { key, first, buffer, .. } => {
            let begin = (h.payload as u64 + first) as usize * SECTOR;
            let sectors = &mut out.image[begin..begin + buffer.len()];
            sectors.copy_from_slice(buffer);
            xts::run(key, *first, sectors, Way::Encipher);
        }
        _ => unreachable!("a read or a write"),
    }
}

fn format_checks(f: &mut Findings, image_len: usize, call: &Call, alignment: u64) {
    let Call::Format { profile, stripes, key, count, uuid, .. } = call else { unreachable!("a format") };
    let length = Profile::numbered(*profile).map(|p| p.key_bytes);
    let payload = |length| header::layout(*stripes, length, alignment).1 * SECTOR as u64;
    f.check(1, || header::bad_length(image_len));
    f.check(7, || length.is_none());
    f.check(8, || !(1..=header::MAX_STRIPES).contains(stripes));
    f.check(9, || length.is_some_and(|l| key.len() != l));
    f.check(10, || length.is_some() && *count < header::SMALLEST_COUNT);
    f.check(11, || bad_uuid(uuid));
    f.check(12, || length.is_some_and(|l| (image_len as u64) < payload(l)));
}

fn add_checks(f: &mut Findings, d: &mut Derivations, h: &Header, call: &Call) {
    let Call::Add { slot, key, passphrase, count, random, list, .. } = call else { unreachable!("an add") };
    let record = h.slot(*slot);
    f.check(13, || record.is_none());
    f.check(15, || record.is_some_and(Slot::enabled));
    f.check(9, || key.len() != h.key_bytes as usize);
    f.check(14, || bad_passphrase(passphrase));
    f.check(10, || *count < header::SMALLEST_COUNT);
    f.check(16, || record.is_some_and(|s| not_stripes(random, s.stripes.saturating_sub(1), h.key_bytes)));
    f.check(20, || record.is_some_and(|s| not_list(list, &[s], h.key_bytes)));
    f.check(17, || h.hash().is_some() && !d.has_checksum(h, key));
}

fn change_checks(f: &mut Findings, d: &mut Derivations, image: &[u8], h: &Header, call: &Call) {
    let Call::Change { from, old, to, new, count, random, filler, list, .. } = call else { unreachable!("a change") };
    let (first, second) = (h.slot(*from), h.slot(*to));
    f.check(13, || first.is_none() || second.is_none());
    f.check(15, || first.is_some_and(|s| !s.enabled()) || second.is_some_and(Slot::enabled));
    f.check(14, || bad_passphrase(old) || bad_passphrase(new));
    f.check(10, || *count < header::SMALLEST_COUNT);
    f.check(16, || {
        second.is_some_and(|s| not_stripes(random, s.stripes.saturating_sub(1), h.key_bytes))
            || first.is_some_and(|s| not_stripes(filler, s.stripes, h.key_bytes))
    });
    f.check(20, || first.zip(second).is_some_and(|(s, t)| not_list(list, &[s, t], h.key_bytes)));
    if let Some(s) = first.filter(|_| h.hash().is_some()) {
        f.check_opening(|| d.candidate(image, h, s, old).map(|key| (*from, key)));
    }
}

fn revoke_checks(f: &mut Findings, h: &Header, call: &Call) {
    let Call::Revoke { slot, filler, list } = call else { unreachable!("a revoke") };
    let record = h.slot(*slot);
    let another = || (1..=8).any(|k| k != *slot && h.slot(k).is_some_and(Slot::enabled));
    f.check(13, || record.is_none());
    f.check(15, || record.is_some_and(|s| !s.enabled()));
    f.check(18, || record.is_some() && !another());
    f.check(16, || record.is_some_and(|s| not_stripes(filler, s.stripes, h.key_bytes)));
    f.check(20, || record.is_some_and(|s| not_list(list, &[s], h.key_bytes)));
}

fn transfer_checks(f: &mut Findings, d: &mut Derivations, h: &Header, image_len: usize, call: &Call) {
    let (Call::Read { key, first, units, buffer } | Call::Write { key, first, units, buffer }) = call else {
        unreachable!("a read or a write")
    };
    let payload = payload_units(h, image_len) as u128;
    f.check(9, || key.len() != h.key_bytes as usize);
    f.check(19, || *first as u128 + *units as u128 > payload);
    f.check(20, || buffer.len() as u128 != SECTOR as u128 * *units as u128);
    f.check(17, || h.hash().is_some() && !d.has_checksum(h, key));
}

/// Zeroes everything before the payload, then writes the header.
fn format(d: &mut Derivations, image: &mut [u8], call: &Call, alignment: u64) {
    let Call::Format { profile, stripes, key, salt, count, uuid } = call else { unreachable!("a format") };
    let profile = Profile::numbered(*profile).expect("check 7 passed");
    let checksum = d.checksum(profile.hash, key, salt, *count);
    let (starts, payload) = header::layout(*stripes, profile.key_bytes, alignment);
    image[..payload as usize * SECTOR].fill(0);
    put(image, at::MAGIC, &header::MAGIC);
    put(image, at::VERSION, &header::VERSION.to_be_bytes());
    for (at, name) in at::NAMES.into_iter().zip(profile.names()) {
        put(image, at, name.as_bytes());
    }
    put_number(image, at::PAYLOAD, payload as u32);
    put_number(image, at::KEY_BYTES, profile.key_bytes as u32);
    put(image, at::CHECKSUM, &checksum);
    put(image, at::SALT, salt);
    put_number(image, at::COUNT, *count);
    put(image, at::UUID, uuid);
    for (k, start) in (1..).zip(starts) {
        Slot { state: DISABLED, count: 0, salt: [0; 32], start: start as u32, stripes: *stripes }.write(image, k);
    }
}

/// The first enabled slot, from 1 to 8, whose candidate has the header's checksum, and that candidate.
fn search(d: &mut Derivations, image: &[u8], h: &Header, passphrase: &[u8]) -> Option<(u8, Vec<u8>)> {
    let enabled = (1..).zip(&h.slots).filter(|(_, slot)| slot.enabled());
    enabled.into_iter().find_map(|(k, slot)| d.candidate(image, h, slot, passphrase).map(|key| (k, key)))
}

/// The list of the work on slot k, as it stands in the buffer, by the image after that work.
fn list_of(image: &[u8], k: u8) -> Vec<u8> {
    let h = Header::read(image);
    writes::encoded(&writes::of_slot(image, &h.slots[k as usize - 1], h.key_bytes))
}

fn answer(slot: u8, key: &[u8]) -> [u8; 66] {
    let mut opened = [0; 66];
    opened[0] = slot;
    opened[1] = key.len() as u8;
    opened[2..2 + key.len()].copy_from_slice(key);
    opened
}

#[cfg(test)]
mod tests {
    use super::*;

    fn format_of_one_stripe() -> Call {
        let uuid = vec![b'u'; 36];
        Call::Format { profile: 1, stripes: 1, key: vec![1; 32], salt: [2; 32], count: 1000, uuid }
    }

    /// For payload 2,048: 1,048,576 bytes pass, 1,048,575 give 1, 1,048,064 and 33,280 give 12. For payload 65, as it was
    /// before: 33,280 bytes pass, 33,279 give 1, 32,768 give 12.
    #[test]
    fn figures_of_format() {
        let number = |mut model: Model, bytes| model.number(&vec![0; bytes], &format_of_one_stripe());
        let numbers = [1_048_576, 1_048_575, 1_048_064, 33_280].map(|bytes| number(Model::default(), bytes));
        assert_eq!(numbers, [0, 1, 12, 12]);
        assert_eq!([33_280, 33_279, 32_768].map(|bytes| number(Model::aligned(1), bytes)), [0, 1, 12]);
    }

    /// Also between the end of area 8 and the payload.
    #[test]
    fn format_zeroes_everything_before_the_payload() {
        let image = Model::default().step(&vec![9; 2050 * SECTOR], &format_of_one_stripe()).image;
        let (before, payload) = image.split_at(2048 * SECTOR);
        assert!(before[header::HEADER..].iter().all(|byte| *byte == 0));
        assert_eq!(payload, [9; 2 * SECTOR]);
    }

    fn a_life(profile: &Profile) {
        let mut model = Model::default();
        let length = profile.key_bytes;
        let (key, salt) = (vec![5; length], [6; 32]);
        let mut image = vec![9; 2049 * SECTOR];
        let mut step = |call: Call| {
            let out = model.step(&image, &call);
            image = out.image.clone();
            out
        };
        let (old, new) = (b"old".to_vec(), b"new".to_vec());
        let (number, uuid) = (profile.number, vec![b'u'; 36]);
        step(Call::Format { profile: number, stripes: 3, key: key.clone(), salt, count: 1000, uuid });
        let (random, passphrase, list) = (vec![1; 2 * length], old.clone(), vec![0; 3 * writes::ENTRY]);
        step(Call::Add { slot: 7, key: key.clone(), passphrase, salt, count: 1000, random, list });
        let (random, filler, list) = (vec![2; 2 * length], vec![3; 3 * length], vec![0; 6 * writes::ENTRY]);
        let (old_one, new_one, count) = (old.clone(), new.clone(), 1000);
        let change = Call::Change { from: 7, old: old_one, to: 2, new: new_one, salt, count, random, filler, list };
        assert_eq!(step(change).number, 0);
        assert_eq!(step(Call::Open { passphrase: old }).number, 17);
        let opened = step(Call::Open { passphrase: new }).opened;
        assert_eq!((opened[0], opened[1] as usize, &opened[2..2 + length]), (2, length, &key[..]));
        step(Call::Write { key: key.clone(), first: 0, units: 1, buffer: vec![4; 512] });
        let read = step(Call::Read { key, first: 0, units: 1, buffer: vec![0; 512] });
        assert_eq!((read.number, read.buffer), (0, vec![4; 512]));
        assert_eq!(Header::read(&image).profile().map(|p| p.number), Some(number));
    }

    #[test]
    fn a_life_of_each_profile() {
        header::PROFILES.iter().for_each(a_life);
    }
}
