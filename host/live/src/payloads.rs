//! Payloads of drives that we format, read and written by cryptsetup itself.

use crate::exchange::{make, payload_start, Maker, FIRST, UNITS};
use crate::hands::{key_of, Hand, Library, Tool};
use crate::peers::Cryptsetup;
use crate::work::{load, random, Checks, Folder, Kind, Outcome};
use model::header::Header;
use model::xts::SECTOR;
use std::path::Path;

pub fn payloads(folder: &Folder, checks: &mut Checks) -> Outcome<()> {
    let tool = Tool::new(folder)?;
    for kind in Kind::all() {
        for hand in [&Library as &dyn Hand, &tool] {
            checks.drive = format!("{kind}, made by us, payload, by the {}", hand.name());
            let image = make(folder, hand, Maker::Ourselves, kind)?;
            exchanged(checks, &Cryptsetup { folder }, hand, kind, &image)?;
        }
    }
    Ok(())
}

/// What we write cryptsetup reads; what it writes, under a key of its own choice, we read.
fn exchanged(checks: &mut Checks, peer: &Cryptsetup, hand: &dyn Hand, kind: Kind, image: &Path) -> Outcome<()> {
    let plain = random(UNITS * SECTOR)?;
    hand.write(image, FIRST, 0, &plain)?;
    let before = load(image)?;
    checks.check("cryptsetup reads what we wrote", peer.read(image, FIRST, plain.len())? == plain)?;
    peer.rewrite(image, kind, FIRST)?;
    let after = load(image)?;
    let start = payload_start(Maker::Ourselves, kind) * SECTOR;
    let anew = before[start..].chunks(SECTOR).zip(after[start..].chunks(SECTOR)).all(|(old, new)| old != new);
    checks.check("cryptsetup writes every unit anew", before.len() == after.len() && anew)?;
    checks.check("under another key", key_of(&before, FIRST)? != key_of(&after, FIRST)?)?;
    checks.check("and leaves the payload where it was", Header::read(&after).payload as usize * SECTOR == start)?;
    checks.check("we open the drive", hand.open(image, FIRST)? == Ok(1))?;
    checks.check("we read what cryptsetup wrote", hand.read(image, FIRST, 0, UNITS as u64)? == plain)
}
