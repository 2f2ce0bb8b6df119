//! The stored drive that our format made before payloads began on a mebibyte, with payload start 65: we use it as before, and
//! its start stays. It has 15 stripes a slot, and both peers read 4,000 only, so the model judges what we did.

use crate::hands::{key_of, Hand, Library, Tool};
use crate::peers::{Cryptsetup, Qemu};
use crate::screens::{agree, of_model};
use crate::work::{load, random, refused_with, store, Checks, Folder, Outcome};
use model::header::Header;
use model::xts::SECTOR;
use model::{Call, Model};
use std::path::Path;

const START: u32 = 65;
const UNITS: usize = 8;
const FIRST: &str = "first passphrase";
const EIGHTH: &str = "8";
const NEW: &str = "a new passphrase";
const CHANGED: &str = "a changed passphrase";

pub fn stored(folder: &Folder, checks: &mut Checks) -> Outcome<()> {
    let stored = Path::new(env!("CARGO_MANIFEST_DIR")).join("../../crates/drives/data/luks1-start-65.img");
    let (image, tool) = (folder.path.join("stored drive"), Tool::new(folder)?);
    for hand in [&Library as &dyn Hand, &tool] {
        checks.drive = format!("the stored drive with start 65, by the {}", hand.name());
        store(&image, &load(&stored)?)?;
        used(checks, hand, &image)?;
    }
    let (cryptsetup, qemu) = (Cryptsetup { folder }.slots(&image), Qemu { folder }.slots(&image));
    checks.check("cryptsetup refuses its 15 stripes", refused_with(cryptsetup, "LUKS keyslot 0 is invalid"))?;
    checks.check("qemu refuses its 15 stripes", refused_with(qemu, "stripes 15 != 4000"))
}

/// We open it, change its slots, and read and write its payload.
fn used(checks: &mut Checks, hand: &dyn Hand, image: &Path) -> Outcome<()> {
    let mut plain: Vec<u8> = (0..UNITS * SECTOR).map(|i| (7 * i % 251) as u8).collect();
    checks.check("slot 1 opens", hand.open(image, FIRST)? == Ok(1))?;
    checks.check("slot 8 opens", hand.open_slot(image, 8, EIGHTH)? == Ok(8))?;
    checks.check("its payload is read", hand.read(image, FIRST, 0, UNITS as u64)? == plain)?;
    hand.add(image, FIRST, 5, NEW)?;
    hand.change(image, 5, NEW, 6, CHANGED)?;
    hand.revoke(image, 8)?;
    let other = random(2 * SECTOR)?;
    hand.write(image, CHANGED, 3, &other)?;
    plain[3 * SECTOR..5 * SECTOR].copy_from_slice(&other);
    checks.check("the slots are 1, 2, 4 and 6 now", hand.slots(image)? == [1, 2, 4, 6])?;
    checks.check("as the model shows them", agree(&hand.details(image)?, &of_model(&load(image)?)))?;
    judged(checks, &load(image)?, &plain)
}

/// By the model, which opens what we changed and reads what we wrote.
fn judged(checks: &mut Checks, image: &[u8], plain: &[u8]) -> Outcome<()> {
    let mut model = Model::default();
    let mut opens = |slot, passphrase: &str| {
        let call = Call::OpenSlot { slot, passphrase: passphrase.as_bytes().to_vec() };
        model.step(image, &call).number
    };
    let opened = [opens(1, FIRST), opens(6, CHANGED), opens(5, NEW), opens(8, EIGHTH)];
    let call = Call::Read { key: key_of(image, CHANGED)?, first: 0, units: UNITS as u64, buffer: vec![0; plain.len()] };
    checks.check("the model opens 1 and 6, and finds 5 and 8 disabled", opened == [0, 0, 15, 15])?;
    checks.check("the model reads the payload with what we wrote", model.step(image, &call).buffer == plain)?;
    checks.check("the payload starts at sector 65 as before", Header::read(image).payload == START)
}
