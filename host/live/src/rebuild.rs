//! Our format and add, given a peer's key, salts, counts and stripes, make that peer's header and areas byte for byte; the
//! payload start too, where cryptsetup puts it as it likes.

use crate::exchange::{make, payload_start, Maker, FIRST, UNITS};
use crate::hands::{list_for, Library};
use crate::peers::{Cryptsetup, Qemu};
use crate::work::{load, random, store, Checks, Folder, Kind, Outcome};
use mivrozh::raw;
use model::header::{at, Header, Slot, HEADER};
use model::slots::Derivations;
use model::xts::SECTOR;
use std::path::Path;

const OTHER: &str = "another passphrase, in slot 7";
/// The slots in use and their passphrases. Slot 7's record crosses a sector's edge.
const SLOTS: [(u8, &str); 2] = [(1, FIRST), (7, OTHER)];

/// What is taken from the peer's drive for one slot.
struct Taken {
    slot: u8,
    passphrase: &'static str,
    record: Slot,
    /// All stripes, deciphered by the model.
    stripes: Vec<u8>,
}

pub fn rebuild(folder: &Folder, checks: &mut Checks, maker: Maker, kind: Kind) -> Outcome<()> {
    let image = make(folder, &Library, maker, kind)?;
    peer_adds(folder, maker, &image)?;
    let theirs = load(&image)?;
    let key = Cryptsetup { folder }.volume_key(&image, FIRST)?;
    let taken = SLOTS.map(|(slot, passphrase)| take(&theirs, slot, passphrase));
    for one in &taken {
        let rebuilt = add_again(&theirs, &key, one)?;
        checks.check(&format!("slot {} added again: the whole image is the peer's", one.slot), rebuilt == theirs)?;
    }
    let ours = format_again(&theirs, kind, &key, &taken)?;
    let without_start = |image: &[u8]| [&image[..at::PAYLOAD], &image[at::KEY_BYTES..HEADER]].concat();
    let (what, same) = match maker {
        Maker::CryptsetupByDefault => ("the payload start too", ours[..HEADER] == theirs[..HEADER]),
        _ => ("but for the payload start", without_start(&ours) == without_start(&theirs)),
    };
    checks.check(&format!("formatted and added again: the header is the peer's, {what}"), same)?;
    for one in &taken {
        let area = area(&theirs, one);
        checks.check(&format!("and the area of slot {}", one.slot), ours[area.clone()] == theirs[area])?;
    }
    judged(folder, checks, &ours)
}

fn peer_adds(folder: &Folder, maker: Maker, image: &Path) -> Outcome<()> {
    match maker {
        Maker::Qemu => Qemu { folder }.add(image, FIRST, 7, OTHER),
        _ => Cryptsetup { folder }.add(image, FIRST, 7, OTHER),
    }
}

fn take(image: &[u8], slot: u8, passphrase: &'static str) -> Taken {
    let header = Header::read(image);
    let record = header.slots[slot as usize - 1].clone();
    let stripes = Derivations::default().stripes(image, &header, &record, passphrase.as_bytes());
    Taken { slot, passphrase, record, stripes: stripes.expect("the peer's slot is enabled and its area in the image") }
}

fn area(image: &[u8], taken: &Taken) -> std::ops::Range<usize> {
    let (begin, end) = taken.record.area(Header::read(image).key_bytes);
    begin as usize..end as usize
}

fn add(image: &mut [u8], key: &[u8], taken: &Taken) -> Outcome<()> {
    let random = &taken.stripes[..taken.stripes.len() - key.len()];
    let (passphrase, record) = (taken.passphrase.as_bytes(), &taken.record);
    let mut list = list_for(image, &[taken.slot]);
    match raw::add(image, taken.slot, key, passphrase, &record.salt, record.count, random, &mut list, &mut 0) {
        0 => Ok(()),
        number => Err(format!("add in slot {} is refused by {number}", taken.slot)),
    }
}

/// The peer's image with one slot wiped, and added again.
fn add_again(theirs: &[u8], key: &[u8], taken: &Taken) -> Outcome<Vec<u8>> {
    let mut image = theirs.to_vec();
    let (filler, mut list) = (random(taken.stripes.len())?, list_for(&image, &[taken.slot]));
    match raw::revoke(&mut image, taken.slot, &filler, &mut list, &mut 0) {
        0 => add(&mut image, key, taken).map(|()| image),
        number => Err(format!("revoke of slot {} is refused by {number}", taken.slot)),
    }
}

/// A new drive from the peer's key, checksum salt and count, UUID, and slots.
fn format_again(theirs: &[u8], kind: Kind, key: &[u8], taken: &[Taken]) -> Outcome<Vec<u8>> {
    let header = Header::read(theirs);
    let mut image = random((payload_start(Maker::Ourselves, kind) + UNITS) * SECTOR)?;
    let uuid = &theirs[at::UUID..at::UUID + 36];
    match raw::format(&mut image, kind.profile(), 4000, key, &header.salt, header.count, uuid, &mut 0) {
        0 => taken.iter().try_for_each(|one| add(&mut image, key, one)).map(|()| image),
        number => Err(format!("format is refused by {number}")),
    }
}

fn judged(folder: &Folder, checks: &mut Checks, ours: &[u8]) -> Outcome<()> {
    let image = folder.path.join("rebuilt drive");
    store(&image, ours)?;
    for (slot, passphrase) in SLOTS {
        let opens = Cryptsetup { folder }.opens(&image, slot, passphrase)?;
        checks.check(&format!("cryptsetup opens slot {slot} of the drive so rebuilt"), opens)?;
    }
    Ok(())
}
