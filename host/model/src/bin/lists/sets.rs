//! For every call and every set of its checks that can fail together: one image and one list of arguments on which
//! exactly these checks fail. The first of them, in the call's order, is the number that both must give.
//!
//! Where two checks seem to be tied, what unties them: HMAC pads its key with zeros, so a master key that ends in a
//! zero byte has its checksum without that byte too (9 without 17), the empty passphrase derives what a single zero
//! byte derives, and a passphrase of 513 bytes what its digest does (14 without 17). A disabled record may
//! still be whole (15 without 17).

use crate::both::Both;
use crate::cuts;
use crate::damage;
use crate::drives::{enable, foreign, Drive};
use crate::random::Random;
use crate::screens;
use model::calls::KINDS;
use model::header::{at, layout, put_number, Header, Profile, ALIGNMENT, DISABLED, PROFILES};
use model::slots::short_equal;
use model::writes::{self, ENTRY};
use model::xts::SECTOR;
use model::Call;
use std::collections::BTreeSet;

/// The checks of each call in the order of 01 and 02, by `KINDS`.
const ORDER: [&[u8]; 8] = [
    &[1, 7, 8, 9, 10, 11, 12],
    &[1, 2, 3, 4, 5, 6, 13, 15, 9, 14, 10, 16, 20, 17],
    &[1, 2, 3, 4, 5, 6, 13, 14, 15, 17],
    &[1, 2, 3, 4, 5, 6, 14, 17],
    &[1, 2, 3, 4, 5, 6, 13, 15, 14, 10, 16, 20, 17],
    &[1, 2, 3, 4, 5, 6, 13, 15, 18, 16, 20],
    &[1, 2, 3, 4, 5, 6, 9, 19, 20, 17],
    &[1, 2, 3, 4, 5, 6, 9, 19, 20, 17],
];

/// Checks that say nothing where another fails: without a profile or a slot there is nothing to compare with.
fn says_nothing(kind: &str, set: &[u8], number: u8) -> bool {
    match kind {
        "format" => set.contains(&7) && [9, 10, 12].contains(&number),
        "add" => set.contains(&13) && [15, 16, 20].contains(&number),
        "open_slot" => set.contains(&13) && [15, 17].contains(&number),
        "change" => set.contains(&13) && number == 20,
        "revoke" => set.contains(&13) && [15, 18, 16, 20].contains(&number),
        _ => false,
    }
}

/// The sets of a call's checks that can fail together, each in the order of the checks.
fn sets(kind: usize) -> Vec<Vec<u8>> {
    let order = ORDER[kind];
    let member =
        |mask: usize| (0..order.len()).filter(move |i| mask >> i & 1 == 1).map(|i| order[i]).collect::<Vec<u8>>();
    let possible = |set: &Vec<u8>| !set.iter().any(|number| says_nothing(KINDS[kind], set, *number));
    (0..1 << order.len()).map(member).filter(possible).collect()
}

/// A drive whose slots 1 and 2 are enabled, 3 is whole and disabled, 4 to 6 are disabled, 7 and 8 are for damage.
struct Base {
    profile: &'static Profile,
    drive: Drive,
    /// 513 bytes that derive what slot 2's passphrase derives.
    long: Vec<u8>,
}

/// What the case under construction draws upon.
struct Maker<'a> {
    random: &'a mut Random,
    base: &'a Base,
    set: &'a [u8],
}

/// Every set, on drives of so many profiles, which take turns; the empty one, where the call is accepted, on every
/// profile.
pub fn run(both: &mut Both, random: &mut Random, profiles: usize) -> Result<[usize; 8], String> {
    let bases = bases(both, random);
    let mut reached = [0; 8];
    for (kind, reached) in reached.iter_mut().enumerate() {
        for (i, set) in sets(kind).iter().enumerate() {
            let profiles = if set.is_empty() { bases.len() } else { profiles };
            for base in bases.iter().cycle().skip(i % bases.len()).take(profiles) {
                reach(both, random, base, kind, set)?;
            }
            *reached += 1;
        }
    }
    Ok(reached)
}

/// One case in which exactly the checks of the set fail.
fn reach(both: &mut Both, random: &mut Random, base: &Base, kind: usize, set: &[u8]) -> Result<(), String> {
    let (mut image, call) = Maker { random, base, set }.case(kind);
    let failing = both.model.failing(&image, &call);
    if failing != *set {
        return Err(format!("{}: meant to fail {set:?}, fails {failing:?}\ncall: {call:?}", KINDS[kind]));
    }
    let number = both.run(&mut image, &call).map_err(|e| format!("failing checks {set:?}: {e}"))?;
    match set.first().copied().unwrap_or(0) {
        first if first == number => Ok(()),
        first => Err(format!("{}: of {set:?} the first is {first}, both say {number}", KINDS[kind])),
    }
}

/// Each way of damage alone, before each call that would be accepted; then the changes that are no damage, and the name
/// of the other hash, under which no key and no passphrase fits.
pub fn ways(both: &mut Both, random: &mut Random) -> Result<usize, String> {
    let bases = bases(both, random);
    let mut made = 0;
    for base in &bases {
        for (kind, call_name) in KINDS.iter().enumerate().skip(1) {
            for (number, name, damage) in damage::WAYS {
                changed(both, random, base, kind, name, damage, number)?;
                made += 1;
            }
            // Revoking asks for no key.
            let number = if *call_name == "revoke" { 0 } else { 17 };
            changed(both, random, base, kind, "the other hash", |_, image| damage::other_hash(image), number)?;
            made += 1;
        }
        for kind in 1..6 {
            for (name, change) in damage::FAIR {
                changed(both, random, base, kind, name, change, 0)?;
                made += 1;
            }
        }
    }
    Ok(made)
}

/// Other lengths that a list buffer might have, in an add, a change and a revoke that would be accepted: 20, and then the right
/// length is accepted, and the list is cut.
pub fn lengths(both: &mut Both, random: &mut Random) -> Result<usize, String> {
    let mut made = 0;
    for base in bases(both, random) {
        for name in ["add", "change", "revoke"] {
            let kind = KINDS.iter().position(|kind| *kind == name).expect("a kind of call");
            let (mut image, mut call) = Maker { random, base: &base, set: &[] }.case(kind);
            let right = call.lent().len();
            let others = other_lengths(&base.drive.header(), right).into_iter().map(|length| (length, 20));
            let before = Drive { image: image.clone(), ..base.drive.clone() };
            for (length, number) in others.chain([(right, 0)]) {
                call.lend_list(random.bytes(length));
                expect(both, &mut image, &call, number).map_err(|e| format!("a list of {length} bytes: {e}"))?;
                made += 1;
            }
            cuts::everywhere(both, random, &before, &call)?;
        }
    }
    Ok(made)
}

/// The drives that are made of one drive of each profile: how many of them show the same on both screens, on the first
/// alone, and on neither.
pub fn agreements(both: &mut Both, random: &mut Random) -> Result<[usize; 3], String> {
    let mut all = [0; 3];
    for base in bases(both, random) {
        let found = screens::agreements(both, random, &base.drive.image)?;
        all.iter_mut().zip(found).for_each(|(all, found)| *all += found);
    }
    Ok(all)
}

/// A call that would be accepted, on an image that was changed: both must give this number.
fn changed(
    both: &mut Both,
    random: &mut Random,
    base: &Base,
    kind: usize,
    name: &str,
    change: damage::Damage,
    number: u8,
) -> Result<(), String> {
    let (mut image, call) = Maker { random, base, set: &[] }.case(kind);
    change(random, &mut image);
    expect(both, &mut image, &call, number).map_err(|e| format!("{name}: {e}"))
}

/// Key bytes, stripes and payload start: 01's figures, as Wish 4 of 02 has them.
const FIGURES: [(usize, u32, usize); 9] = [
    (32, 1, 2048),
    (32, 15, 2048),
    (32, 16, 2048),
    (32, 3967, 2048),
    (32, 3968, 4096),
    (32, 4000, 4096),
    (64, 1983, 2048),
    (64, 1984, 4096),
    (64, 4000, 4096),
];

/// Format at each figure, with at most so many of the profiles that have its key length: an image that ends at the payload
/// start is accepted; a sector less and the length that was enough for payload 65 give 12, a byte less 1. Then slot 8 of
/// the drive is added and opened, and a unit behind the payload start written and read.
pub fn figures(both: &mut Both, random: &mut Random, profiles: usize) -> Result<usize, String> {
    let mut made = 0;
    for (i, (key_bytes, stripes, payload)) in FIGURES.into_iter().enumerate() {
        let such = PROFILES.iter().filter(|p| p.key_bytes == key_bytes);
        let number = profiles.min(such.clone().count());
        for profile in such.cycle().skip(i % 2).take(number) {
            figure(both, random, profile, stripes, payload)?;
            made += 8;
        }
    }
    Ok(made)
}

fn figure(both: &mut Both, random: &mut Random, p: &Profile, stripes: u32, payload: usize) -> Result<(), String> {
    let (profile, key, uuid) = (p.number, random.bytes(p.key_bytes), vec![b'u'; 36]);
    let format = Call::Format { profile, stripes, key: key.clone(), salt: [3; 32], count: 1000, uuid };
    let mut image = random.bytes(payload * SECTOR);
    let passphrase = random.bytes(9);
    let before = random.bytes((stripes as usize - 1) * key.len());
    let (slot, passed) = (8, passphrase.clone());
    let entries = (stripes as usize * key.len()).div_ceil(SECTOR) + 2;
    let (salt, list) = ([4; 32], random.bytes(entries * ENTRY));
    let add = Call::Add { slot, key: key.clone(), passphrase: passed, salt, count: 1000, random: before, list };
    let short = |by: usize| image[..image.len() - by].to_vec();
    for (mut image, number) in [(short(SECTOR), 12), (image[..65 * SECTOR].to_vec(), 12), (short(1), 1)] {
        expect(both, &mut image, &format, number)?;
    }
    expect(both, &mut image, &format, 0)?;
    expect(both, &mut image, &add, 0)?;
    expect(both, &mut image, &Call::Open { passphrase }, 0)?;
    image.resize(image.len() + SECTOR, 0x33);
    let write = Call::Write { key: key.clone(), first: 0, units: 1, buffer: random.bytes(SECTOR) };
    expect(both, &mut image, &write, 0)?;
    expect(both, &mut image, &Call::Read { key, first: 0, units: 1, buffer: vec![0; SECTOR] }, 0)
}

fn expect(both: &mut Both, image: &mut Vec<u8>, call: &Call, number: u8) -> Result<(), String> {
    match both.run(image, call)? {
        said if said == number => Ok(()),
        said => Err(format!("{} gives {number}, both say {said}", KINDS[call.kind()])),
    }
}

/// One for each profile.
fn bases(both: &mut Both, random: &mut Random) -> Vec<Base> {
    PROFILES.iter().map(|profile| base(both, random, profile)).collect()
}

fn base(both: &mut Both, random: &mut Random, profile: &'static Profile) -> Base {
    let d = &mut both.model.derivations;
    let mut key = random.bytes(profile.key_bytes);
    key[profile.key_bytes - 1] = 0;
    let mut drive = foreign(random, d, profile, &key, 0);
    let payload = drive.header().payload as usize;
    drive.image.resize((payload + 3) * SECTOR, 0x77);
    let long = random.bytes(513);
    enable(random, d, &mut drive, 1, &[0]);
    enable(random, d, &mut drive, 2, &short_equal(profile.hash, &long));
    enable(random, d, &mut drive, 3, &[0]);
    disable(&mut drive.image, 3);
    Base { profile, drive, long }
}

fn disable(image: &mut [u8], k: usize) {
    put_number(image, at::slot(k) + at::STATE, DISABLED);
}

impl Maker<'_> {
    fn fails(&self, number: u8) -> bool {
        self.set.contains(&number)
    }

    fn case(&mut self, kind: usize) -> (Vec<u8>, Call) {
        if kind == 0 {
            return self.format();
        }
        let mut image = self.base.drive.image.clone();
        let call = match KINDS[kind] {
            "add" => self.add(),
            "open_slot" => self.open_slot(),
            "open" => self.open(&mut image),
            "change" => self.change(),
            "revoke" => self.revoke(&mut image),
            "read" => self.payload(&image, true),
            _ => self.payload(&image, false),
        };
        self.damage(&mut image);
        (image, call)
    }

    /// Violates the wanted checks of the header and no other: 5 in the record of slot 8, 6 in that of slot 7.
    fn damage(&mut self, image: &mut Vec<u8>) {
        let payload = self.base.drive.header().payload;
        let taken = self.base.drive.header().slots[3].start;
        for number in 2..=4 {
            if self.fails(number) {
                let ways: Vec<_> =
                    damage::WAYS.iter().filter(|w| w.0 == number && w.1 != "key bytes of no profile").collect();
                self.damage_by(image, &ways);
            }
        }
        if self.fails(5) {
            let (field, value) = self.random.pick(&[(at::STRIPES, 0), (at::STATE, 0), (at::STATE, DISABLED + 1)]);
            put_number(image, at::slot(8) + field, value);
        }
        if self.fails(6) {
            let start = self.random.pick(&[0, 1, payload, taken, u32::MAX]);
            put_number(image, at::slot(7) + at::START, start);
        }
        if self.fails(1) {
            image.extend(vec![1; self.random.range(1, 511)]);
        }
    }

    /// One of these ways. Where 17 is to fail too, the hash stays known: of another 17 says nothing.
    fn damage_by(&mut self, image: &mut Vec<u8>, ways: &[&damage::Way]) {
        let mut damaged = image.clone();
        (self.random.pick(ways).2)(self.random, &mut damaged);
        while self.fails(17) && Header::read(&damaged).hash().is_none() {
            damaged.clone_from(image);
            (self.random.pick(ways).2)(self.random, &mut damaged);
        }
        *image = damaged;
    }

    fn format(&mut self) -> (Vec<u8>, Call) {
        let r = &mut *self.random;
        let length = self.base.profile.key_bytes;
        let stripes = if self.set.contains(&8) { 0 } else { r.range(1, 20) as u32 };
        let payload = layout(stripes, length, ALIGNMENT).1 as usize;
        let short = r.range(2, payload - 1);
        let sectors =
            if self.set.contains(&12) { r.pick(&[2, 65, payload - 1, short]) } else { payload + r.range(0, 2) };
        let mut image = r.bytes(sectors * SECTOR);
        if self.set.contains(&1) {
            let more = r.range(1, 511);
            image.extend(vec![1; more]);
        }
        let profile = if self.set.contains(&7) { r.pick(&[0, 5, 6, 128, 255]) } else { self.base.profile.number };
        let lengths = [0, 1, length - 1, length + 1, 96 - length, 128];
        let key_length = if self.set.contains(&9) { r.pick(&lengths) } else { length };
        let count = self.count();
        let uuid = self.uuid();
        let (key, salt) = (self.random.bytes(key_length), self.random.salt());
        (image, Call::Format { profile, stripes, key, salt, count, uuid })
    }

    fn uuid(&mut self) -> Vec<u8> {
        let r = &mut *self.random;
        let mut uuid: Vec<u8> = (0..36).map(|_| r.range(33, 126) as u8).collect();
        if self.set.contains(&11) {
            match r.range(0, 2) {
                0 => uuid.truncate(r.range(0, 35)),
                1 => uuid.extend(vec![b'x'; r.range(1, 5)]),
                _ => uuid[r.range(0, 35)] = r.pick(&[0, 31, 32, 127, 128, 255]),
            }
        }
        uuid
    }

    fn count(&mut self) -> u32 {
        if self.fails(10) {
            self.random.pick(&[0, 1, 500, 999])
        } else {
            self.random.pick(&[1000, 1000, 1001])
        }
    }

    fn no_slot(&mut self) -> u8 {
        self.random.pick(&[0, 9, 10, 128, 255])
    }

    /// The drive's key: of another length if 9 fails, and of another checksum if 17 does.
    fn key(&mut self) -> Vec<u8> {
        let mut key = self.base.drive.key.clone();
        if self.fails(9) {
            key.pop();
        }
        if self.fails(17) {
            let at = self.random.range(0, key.len() - 1);
            key[at] ^= self.random.range(1, 255) as u8;
        }
        key
    }

    /// A new passphrase, of a forbidden length if `bad`.
    fn passphrase(&mut self, bad: bool) -> Vec<u8> {
        let length = if bad { self.random.pick(&[0, 513, 514, 600]) } else { self.random.pick(&[1, 20, 64, 65, 512]) };
        self.random.bytes(length)
    }

    /// A passphrase for slot k, 1 to 3: right or wrong, of a forbidden length or not.
    fn passphrase_of(&mut self, k: u8, bad: bool, wrong: bool) -> Vec<u8> {
        match (bad, wrong, k) {
            (false, false, 2) => short_equal(self.base.profile.hash, &self.base.long),
            (false, false, _) => vec![0],
            (true, false, 2) => self.base.long.clone(),
            (true, false, _) => vec![],
            (true, true, 2) => self.passphrase(true),
            (true, true, _) => self.random.bytes(513),
            (false, true, _) => self.random.bytes(21),
        }
    }

    /// So many bytes for slot k's stripes, `less` left out; not so many if `bad`. Any for a slot that is not there.
    fn stripes(&mut self, k: u8, less: u32, bad: bool) -> Vec<u8> {
        let length = self.base.drive.key.len();
        let stripes = self.base.drive.header().slot(k).map_or(0, |s| s.stripes - less) as usize;
        let right = stripes * length;
        let others = [0, 1, right + 1, right + length, right.saturating_sub(1), right.saturating_sub(length)];
        let others: Vec<usize> = others.into_iter().filter(|other| *other != right).collect();
        let bytes = if bad { self.random.pick(&others) } else { right };
        self.random.bytes(bytes)
    }

    /// A list buffer full of junk for the work on these slots; of another length if `bad`. Any where a slot is not there.
    fn list(&mut self, slots: &[u8], bad: bool) -> Vec<u8> {
        let right = list_length(&self.base.drive.header(), slots).unwrap_or(ENTRY);
        let length = if bad { self.random.pick(&other_lengths(&self.base.drive.header(), right)) } else { right };
        self.random.bytes(length)
    }

    fn add(&mut self) -> Call {
        let slot = match (self.fails(13), self.fails(15)) {
            (true, _) => self.no_slot(),
            (_, true) => self.random.pick(&[1, 2]),
            _ => self.random.pick(&[3, 4, 5, 6]),
        };
        let key = self.key();
        let passphrase = self.passphrase(self.fails(14));
        let (salt, count) = (self.random.salt(), self.count());
        let random = self.stripes(slot, 1, self.fails(16));
        let list = self.list(&[slot], self.fails(20));
        Call::Add { slot, key, passphrase, salt, count, random, list }
    }

    fn open_slot(&mut self) -> Call {
        let slot = if self.fails(15) { 3 } else { self.random.pick(&[1, 2]) };
        let passphrase = self.passphrase_of(slot, self.fails(14), self.fails(17));
        let slot = if self.fails(13) { self.no_slot() } else { slot };
        Call::OpenSlot { slot, passphrase }
    }

    fn open(&mut self, image: &mut [u8]) -> Call {
        let slot = self.random.pick(&[1, 2]);
        if self.fails(17) && self.random.chance(1, 2) {
            disable(image, 1);
            disable(image, 2);
            return Call::Open { passphrase: self.passphrase_of(slot, self.fails(14), false) };
        }
        let wrong = self.fails(17);
        let passphrase = if self.fails(14) && wrong {
            self.random.bytes(513)
        } else {
            self.passphrase_of(slot, self.fails(14), wrong)
        };
        Call::Open { passphrase }
    }

    fn change(&mut self) -> Call {
        let (no_from, no_to) = self.missing_slots();
        let (mut from, mut to) = (self.random.pick(&[1, 2]), self.random.pick(&[4, 5, 6]));
        if self.fails(15) {
            let which = if no_from {
                1
            } else if no_to {
                0
            } else {
                self.random.range(0, 3)
            };
            match which {
                0 => from = 3,
                1 => to = self.random.pick(&[1, 2]),
                2 => (from, to) = (3, self.random.pick(&[1, 2])),
                _ => to = from,
            }
        }
        let (bad_old, bad_new) = one_or_both(self.random, self.fails(14));
        let old = self.passphrase_of(from, bad_old, self.fails(17));
        let new = self.passphrase(bad_new);
        if no_from {
            from = self.no_slot();
        }
        if no_to {
            to = self.no_slot();
        }
        let (bad_random, bad_filler) = match (no_from, no_to) {
            (true, _) => (self.fails(16), false),
            (_, true) => (false, self.fails(16)),
            _ => one_or_both(self.random, self.fails(16)),
        };
        let random = self.stripes(to, 1, bad_random);
        let filler = self.stripes(from, 0, bad_filler);
        let list = self.list(&[to, from], self.fails(20));
        Call::Change { from, old, to, new, salt: self.random.salt(), count: self.count(), random, filler, list }
    }

    /// Which of change's two slots is not there: not the first where its candidate is to be judged, and not both
    /// where another check needs one of them.
    fn missing_slots(&mut self) -> (bool, bool) {
        match (self.fails(13), self.fails(17), self.fails(15) || self.fails(16)) {
            (false, _, _) => (false, false),
            (_, true, _) => (false, true),
            (_, _, true) => self.random.pick(&[(true, false), (false, true)]),
            _ => self.random.pick(&[(true, false), (false, true), (true, true)]),
        }
    }

    fn revoke(&mut self, image: &mut [u8]) -> Call {
        let slot = if self.fails(15) { self.random.pick(&[3, 4, 5]) } else { self.random.pick(&[1, 2]) };
        if self.fails(18) {
            [1, 2].into_iter().filter(|k| *k != slot).for_each(|k| disable(image, k as usize));
        }
        let slot = if self.fails(13) { self.no_slot() } else { slot };
        let (filler, list) = (self.stripes(slot, 0, self.fails(16)), self.list(&[slot], self.fails(20)));
        Call::Revoke { slot, filler, list }
    }

    fn payload(&mut self, image: &[u8], read: bool) -> Call {
        let payload = image.len() as u64 / SECTOR as u64 - self.base.drive.header().payload as u64;
        let key = self.key();
        let mut units = self.random.range(0, payload as usize) as u64;
        let mut first = self.random.range(0, (payload - units) as usize) as u64;
        if self.fails(19) {
            match self.random.range(0, 3) {
                0 => first = payload + 1 - units,
                1 => first = u64::MAX - units + 1 - (units == 0) as u64,
                2 => first = u64::MAX,
                _ => (first, units) = (payload, 1),
            }
        }
        let mut length = units as usize * SECTOR;
        if self.fails(20) {
            let others = [0, 1, length + 1, length + SECTOR, length.saturating_sub(1)];
            let others: Vec<usize> = others.into_iter().filter(|other| *other != length).collect();
            length = self.random.pick(&others);
            if self.fails(19) && self.random.chance(1, 4) {
                units = self.random.pick(&[1 << 55, u64::MAX, (1 << 55) + length as u64 / 512 + 1]);
            }
        }
        let buffer = self.random.bytes(length);
        if read {
            Call::Read { key, first, units, buffer }
        } else {
            Call::Write { key, first, units, buffer }
        }
    }
}

/// How long the list of the work on these slots is; none where one of them is not there.
pub fn list_length(header: &Header, slots: &[u8]) -> Option<usize> {
    let length = |k: &u8| header.slot(*k).map(|slot| writes::length(slot, header.key_bytes) as usize);
    slots.iter().map(length).sum()
}

/// Lengths that a list buffer might have and must not: none, a byte or an entry short or long, the list of any one slot,
/// twice that, and the bytes of the sectors without their numbers.
fn other_lengths(header: &Header, right: usize) -> Vec<usize> {
    let of_slots = (1..=8).filter_map(|k| list_length(header, &[k])).flat_map(|length| [length, 2 * length]);
    let near = [0, 1, right - 1, right + 1, right - ENTRY, right + ENTRY, right / ENTRY * SECTOR];
    let others: BTreeSet<usize> = near.into_iter().chain(of_slots).filter(|length| *length != right).collect();
    others.into_iter().collect()
}

fn one_or_both(random: &mut Random, some: bool) -> (bool, bool) {
    if some {
        random.pick(&[(true, false), (false, true), (true, true)])
    } else {
        (false, false)
    }
}
