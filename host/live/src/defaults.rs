//! Drives that cryptsetup and qemu make where nothing is said of cipher, hash and key size: profile 4.

use crate::hands::{Hand, Library, Tool};
use crate::peers::{Cryptsetup, Qemu};
use crate::screens::agree;
use crate::work::{load, random, store, Checks, Folder, Outcome};
use model::header::Header;
use model::xts::SECTOR;
use std::path::Path;

const PASSPHRASE: &str = "the only passphrase";
const UNITS: usize = 16;
/// More than the sectors before the payload of any drive.
const BEFORE: usize = 8192;

pub fn defaults(folder: &Folder, checks: &mut Checks) -> Outcome<()> {
    let (image, plain) = (folder.path.join("default drive"), random(UNITS * SECTOR)?);
    checks.drive = "made by qemu with its defaults".into();
    Qemu { folder }.format_by_default(&image, PASSPHRASE, plain.len())?;
    Qemu { folder }.write(&image, PASSPHRASE, &plain)?;
    used(folder, checks, &image, &plain)?;

    // Here too qemu writes the payload, from its start.
    checks.drive = "made by cryptsetup with its defaults".into();
    store(&image, &vec![0; (BEFORE + UNITS) * SECTOR])?;
    Cryptsetup { folder }.format_by_default(&image, PASSPHRASE)?;
    Qemu { folder }.write(&image, PASSPHRASE, &plain)?;
    used(folder, checks, &image, &plain)
}

/// We open the drive and read what it holds.
fn used(folder: &Folder, checks: &mut Checks, image: &Path, plain: &[u8]) -> Outcome<()> {
    let tool = Tool::new(folder)?;
    let header = Header::read(&load(image)?);
    checks.check("the header has profile 4", header.profile().map(|p| p.number) == Some(4))?;
    for hand in [&Library as &dyn Hand, &tool] {
        let (name, opened) = (hand.name(), hand.open(image, PASSPHRASE)?);
        let read = hand.read(image, PASSPHRASE, 0, UNITS as u64)?;
        checks.check(&format!("the {name} opens it"), opened == Ok(1))?;
        checks.check(&format!("the {name} reads what qemu wrote"), read == plain)?;
        let (slots, details) = (hand.slots(image)?, hand.details(image)?);
        let (dump, info) = (Cryptsetup { folder }.slots(image)?, Qemu { folder }.slots(image)?);
        checks.check(&format!("the {name} shows slot 1 enabled"), slots == [1])?;
        checks.check(&format!("the {name} shows what luksDump shows"), agree(&details, &dump))?;
        checks.check(&format!("the {name} shows what qemu-img info shows"), agree(&details, &info))?;
    }
    Ok(())
}
