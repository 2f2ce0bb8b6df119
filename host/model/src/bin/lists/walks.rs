//! Random lists of calls on one drive: formatted, with an old payload start, foreign or damaged; with arguments that are
//! mostly fair.

use crate::both::Both;
use crate::cuts;
use crate::damage;
use crate::drives::{self, fair_format, foreign, image_for, old_start, Drive};
use crate::random::Random;
use crate::sets;
use model::header::{Profile, ALIGNMENT, HEADER};
use model::writes::ENTRY;
use model::xts::SECTOR;
use model::Call;

/// What a list begins on.
#[derive(Clone, Copy, PartialEq)]
pub enum Beginning {
    New,
    OldStart,
    Foreign,
    Damaged,
}

use Beginning::{Damaged, Foreign, New, OldStart};

/// The names of the beginnings, in their order.
pub const BEGINNINGS: [&str; 4] = ["a new drive", "an old payload start", "a foreign drive", "a damaged drive"];

/// Lists begin on these by turns, so that a short run has all of them too.
pub const TURNS: [Beginning; 10] = [New, OldStart, Foreign, Damaged, New, OldStart, Foreign, Damaged, New, OldStart];

/// One list of calls, at most `most` of them; gives how many were made. Lists of sector writes are cut on the way.
pub fn walk(both: &mut Both, random: &mut Random, on: Beginning, most: usize) -> Result<usize, String> {
    let mut drive = start(both, random, on)?;
    // A new drive is made by a call.
    let mut made = usize::from(on == New);
    let length = random.range(5, 40);
    while made < most && made < length {
        if random.chance(1, 30) {
            disturb(random, &mut drive);
        }
        let call = some_call(random, &drive);
        let before = cuts::is_chosen(random, &drive, &call).then(|| drive.clone());
        let number = both.run(&mut drive.image, &call)?;
        if number == 0 {
            if let Some(before) = before {
                cuts::everywhere(both, random, &before, &call)?;
            }
            drive.learn(&call);
        }
        made += 1;
    }
    Ok(made)
}

/// Two adds, a change and a revoke on a new drive, whose image is long, each accepted and its list cut: in random lists that may
/// not come.
pub fn cut_on_new_drive(both: &mut Both, random: &mut Random) -> Result<(), String> {
    let (profile, key) = drives::profile_and_key(random);
    let mut drive = formatted(both, random, profile, key)?;
    for make in [add, add, change, revoke] {
        loop {
            let (before, call) = (drive.clone(), make(random, &drive));
            if both.run(&mut drive.image, &call)? == 0 {
                cuts::everywhere(both, random, &before, &call)?;
                drive.learn(&call);
                break;
            }
        }
    }
    Ok(())
}

/// A byte beyond the header becomes another: of an area, of the payload, or anywhere.
fn disturb(random: &mut Random, drive: &mut Drive) {
    let (header, least, end) = (drive.header(), HEADER as u128, drive.image.len() as u128);
    let area = header.slots[random.range(0, 7)].area(header.key_bytes);
    let payload = (header.payload as u128 * SECTOR as u128, end);
    let (from, to) = random.pick(&[area, payload, (least, end)]);
    let (from, to) = (from.max(least) as usize, to.min(end) as usize);
    // An area may lie outside a damaged image, and a payload may be empty.
    if from < to {
        drive.image[random.range(from, to - 1)] ^= random.range(1, 255) as u8;
    }
}

fn start(both: &mut Both, random: &mut Random, on: Beginning) -> Result<Drive, String> {
    let (profile, key) = drives::profile_and_key(random);
    let chance = random.range(1, 6) as u64;
    match on {
        New => formatted(both, random, profile, key),
        OldStart => Ok(old_start(random, profile, &key, chance)),
        Foreign => Ok(foreign(random, &mut both.model.derivations, profile, &key, chance)),
        Damaged => {
            let whole = random.pick(&[OldStart, Foreign]);
            let mut drive = start(both, random, whole)?;
            wreck(random, &mut drive.image);
            Ok(drive)
        }
    }
}

fn formatted(both: &mut Both, random: &mut Random, profile: &Profile, key: Vec<u8>) -> Result<Drive, String> {
    let call = fair_format(random, profile, key.clone());
    let mut drive = Drive { image: image_for(random, &call, ALIGNMENT), key, passphrases: Default::default() };
    match both.run(&mut drive.image, &call)? {
        0 => Ok(drive),
        number => Err(format!("a fair format is refused by {number}: {call:?}")),
    }
}

/// One to three ways of damage, some bits of the header, the name of the other hash, or nothing but random bytes.
fn wreck(random: &mut Random, image: &mut Vec<u8>) {
    match random.range(0, 5) {
        5 => damage::other_hash(image),
        0 => *image = random.bytes(image.len().min(20_000)),
        1 => {
            for _ in 0..random.range(1, 3) {
                let at = random.range(0, 591);
                image[at] ^= 1 << random.range(0, 7);
            }
        }
        _ => {
            for _ in 0..random.range(1, 3) {
                // A way may shorten the image so much that the next has no header to damage.
                if image.len() >= 2 * SECTOR {
                    (random.pick(&damage::WAYS).2)(random, image);
                }
            }
        }
    }
    damage::calm(image);
}

/// One time in `RARE`, an argument is not as it should be.
const RARE: u64 = 14;

/// No list is longer: two areas of 4,000 stripes of 64 bytes. A damaged header may call for more.
const MOST_LIST: usize = 2 * 502 * ENTRY;

fn some_call(r: &mut Random, drive: &Drive) -> Call {
    match r.range(0, 31) {
        0 => format(r),
        1..=6 => add(r, drive),
        7..=11 => open_slot(r, drive),
        12..=15 => Call::Open { passphrase: known_passphrase(r, drive) },
        16..=20 => change(r, drive),
        21..=23 => revoke(r, drive),
        24..=27 => read(r, drive),
        _ => write(r, drive),
    }
}

fn format(r: &mut Random) -> Call {
    let (profile, key) = drives::profile_and_key(r);
    let mut call = fair_format(r, profile, key);
    let Call::Format { profile, stripes, key, count, uuid, .. } = &mut call else { unreachable!("a format") };
    if r.chance(1, RARE) {
        *profile = if r.chance(1, 2) { r.range(0, 6) as u8 } else { r.byte() };
    }
    if r.chance(1, RARE) {
        *stripes = r.pick(&[0, 4001, u32::MAX, 4000, 300]);
    }
    if r.chance(1, RARE) {
        *key = r.bytes_up_to(70);
    }
    if r.chance(1, RARE) {
        *count = r.range(0, 1000) as u32;
    }
    if r.chance(1, RARE) {
        *uuid = r.bytes(36);
    }
    call
}

fn slot(r: &mut Random) -> u8 {
    if r.chance(1, RARE) {
        r.pick(&[0, 9, 10, 64, 200, 255])
    } else {
        r.range(1, 8) as u8
    }
}

/// A slot in the wanted state, if the drive has one and most of the time.
fn slot_that_is(r: &mut Random, drive: &Drive, enabled: bool) -> u8 {
    let h = drive.header();
    let such: Vec<u8> = (1..=8).filter(|k| h.slots[*k as usize - 1].enabled() == enabled).collect();
    if such.is_empty() || r.chance(1, RARE) {
        slot(r)
    } else {
        r.pick(&such)
    }
}

fn key(r: &mut Random, drive: &Drive) -> Vec<u8> {
    match r.range(0, 3 * RARE as usize) {
        0 => r.bytes(drive.key.len()),
        1 => r.bytes_up_to(70),
        2 => [&drive.key[..], &[0]].concat(),
        _ => drive.key.clone(),
    }
}

fn new_passphrase(r: &mut Random) -> Vec<u8> {
    if r.chance(1, RARE) {
        let length = r.pick(&[0, 0, 513, 600]);
        r.bytes(length)
    } else {
        drives::passphrase(r)
    }
}

/// A passphrase that some slot was given, most of the time.
fn known_passphrase(r: &mut Random, drive: &Drive) -> Vec<u8> {
    let known: Vec<_> = drive.passphrases.iter().flatten().collect();
    if known.is_empty() || r.chance(1, 5) {
        new_passphrase(r)
    } else {
        r.pick(&known).clone()
    }
}

/// The slot's own passphrase, most of the time.
fn passphrase_of(r: &mut Random, drive: &Drive, slot: u8) -> Vec<u8> {
    let own = drive.passphrases.get((slot as usize).wrapping_sub(1)).cloned().flatten();
    match own {
        Some(own) if !r.chance(1, 10) => own,
        _ => known_passphrase(r, drive),
    }
}

fn count(r: &mut Random) -> u32 {
    if r.chance(1, RARE) {
        r.pick(&[0, 1, 998, 999])
    } else {
        r.range(1000, 1002) as u32
    }
}

/// A list buffer full of junk for the work on these slots, of the right length most of the time.
fn list(r: &mut Random, drive: &Drive, slots: &[u8]) -> Vec<u8> {
    let right = sets::list_length(&drive.header(), slots).unwrap_or(ENTRY).min(MOST_LIST);
    let others = [0, 1, right - 1, right + 1, right - ENTRY, right + ENTRY, right / 2, 2 * right];
    let length = if r.chance(1, RARE) { r.pick(&others) } else { right };
    r.bytes(length)
}

/// Bytes for the stripes of a slot, the last left out if `less` is 1.
fn stripes(r: &mut Random, drive: &Drive, slot: u8, less: u64) -> Vec<u8> {
    let h = drive.header();
    let n = h.slot(slot).map_or(3, |s| s.stripes) as u64;
    let right = n.saturating_sub(less).min(4000) * h.key_bytes.min(64) as u64;
    let length = if r.chance(1, RARE) { r.pick(&[0, 1, right + 1, right + 64, right / 2]) } else { right };
    r.bytes(length as usize)
}

fn add(r: &mut Random, drive: &Drive) -> Call {
    let slot = slot_that_is(r, drive, false);
    let (key, passphrase, salt, count) = (key(r, drive), new_passphrase(r), r.salt(), count(r));
    let (random, list) = (stripes(r, drive, slot, 1), list(r, drive, &[slot]));
    Call::Add { slot, key, passphrase, salt, count, random, list }
}

fn open_slot(r: &mut Random, drive: &Drive) -> Call {
    let slot = slot_that_is(r, drive, true);
    Call::OpenSlot { slot, passphrase: passphrase_of(r, drive, slot) }
}

fn change(r: &mut Random, drive: &Drive) -> Call {
    let (from, to) = (slot_that_is(r, drive, true), slot_that_is(r, drive, false));
    let (old, new) = (passphrase_of(r, drive, from), new_passphrase(r));
    let (random, filler) = (stripes(r, drive, to, 1), stripes(r, drive, from, 0));
    let list = list(r, drive, &[to, from]);
    Call::Change { from, old, to, new, salt: r.salt(), count: count(r), random, filler, list }
}

fn revoke(r: &mut Random, drive: &Drive) -> Call {
    let slot = slot_that_is(r, drive, true);
    let (filler, list) = (stripes(r, drive, slot, 0), list(r, drive, &[slot]));
    Call::Revoke { slot, filler, list }
}

/// Most units that one call reads or writes: a payload may be a mebibyte long.
const MOST_UNITS: usize = 6;

/// First unit, number of units and the buffer's length.
fn span(r: &mut Random, drive: &Drive) -> (u64, u64, usize) {
    let whole = drive.image.len() / SECTOR;
    let payload = whole.saturating_sub(drive.header().payload as usize);
    let units = r.range(0, payload.min(MOST_UNITS));
    let first = r.range(0, payload - units) as u64;
    let first = if r.chance(1, RARE) { r.pick(&[payload as u64 + 1, u64::MAX, 1 << 55]) } else { first };
    let length = units * SECTOR;
    let length = if r.chance(1, RARE) { r.pick(&[0, length + 1, length + SECTOR, length / 2]) } else { length };
    (first, units as u64, length)
}

fn read(r: &mut Random, drive: &Drive) -> Call {
    let (first, units, length) = span(r, drive);
    Call::Read { key: key(r, drive), first, units, buffer: r.bytes(length) }
}

fn write(r: &mut Random, drive: &Drive) -> Call {
    let (first, units, length) = span(r, drive);
    Call::Write { key: key(r, drive), first, units, buffer: r.bytes(length) }
}
