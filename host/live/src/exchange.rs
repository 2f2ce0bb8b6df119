//! The life of a drive that changes hands: made by cryptsetup, by qemu, by us or by us as we were before payloads began on
//! a mebibyte; used by us, judged by them, used by them, judged by us.

use crate::hands::{key_of, Hand};
use crate::peers::{Cryptsetup, Qemu};
use crate::screens::{agree, enabled, of_model};
use crate::work::{load, random, refused_with, salt, store, Checks, Folder, Kind, Outcome};
use model::header::Header;
use model::writes::ENTRY;
use model::xts::SECTOR;
use model::{Call, Model};
use std::path::{Path, PathBuf};

/// The passphrase of slot 1 of a new drive.
pub const FIRST: &str = "first passphrase";
const SECOND: &str = "2";
const THIRD: &str = "a third passphrase, which is longer than the sixty-four bytes of a block of either hash";
const FOURTH: &str = "fourth";
const FIFTH: &str = "fifth";
const SIXTH: &str = "sixth";
const WRONG: &str = "wrong";

/// The payload units of every drive here.
pub const UNITS: usize = 32;

#[derive(Clone, Copy, PartialEq)]
pub enum Maker {
    /// With the payload right after the areas, as cryptsetup measures them.
    Cryptsetup,
    /// With the payload where cryptsetup puts it.
    CryptsetupByDefault,
    Qemu,
    Ourselves,
    /// The model, by the rules before Wish 4: with the payload right after area 8.
    OurselvesBefore,
}

/// Whose hands a slot is added and removed by.
#[derive(Clone, Copy)]
enum Peer {
    Cryptsetup,
    Qemu,
}

impl Maker {
    pub fn name(self) -> &'static str {
        match self {
            Maker::Cryptsetup => "made by cryptsetup",
            Maker::CryptsetupByDefault => "made by cryptsetup, payload where it likes",
            Maker::Qemu => "made by qemu",
            Maker::Ourselves => "made by us",
            Maker::OurselvesBefore => "made by us before payloads began on a mebibyte",
        }
    }

    /// The peer that works on the drive before us, and the one that does after us.
    fn peers(self) -> [Peer; 2] {
        match self {
            Maker::Qemu => [Peer::Qemu; 2],
            Maker::Ourselves => [Peer::Cryptsetup, Peer::Qemu],
            _ => [Peer::Cryptsetup; 2],
        }
    }
}

pub struct Exchange<'a> {
    pub checks: &'a mut Checks,
    pub hand: &'a dyn Hand,
    pub maker: Maker,
    pub kind: Kind,
    pub cryptsetup: Cryptsetup<'a>,
    pub qemu: Qemu<'a>,
    pub image: PathBuf,
    /// What the payload holds.
    pub plain: Vec<u8>,
}

/// The sectors before the payload in the drives that are made here: of cryptsetup's and qemu's own choice, ours, and ours
/// before Wish 4.
pub fn payload_start(maker: Maker, kind: Kind) -> usize {
    match (maker, kind.bits) {
        (Maker::Ourselves | Maker::CryptsetupByDefault, _) => 4096,
        (Maker::OurselvesBefore, 256) => 2051,
        (Maker::OurselvesBefore, _) => 4037,
        (_, 256) => 2056,
        _ => 4040,
    }
}

/// Makes a drive of `UNITS` units with the first passphrase in slot 1.
pub fn make(folder: &Folder, hand: &dyn Hand, maker: Maker, kind: Kind) -> Outcome<PathBuf> {
    let image = folder.path.join("drive");
    let _ = std::fs::remove_file(&image);
    let bytes = (payload_start(maker, kind) + UNITS) * SECTOR;
    match maker {
        Maker::Qemu => Qemu { folder }.format(&image, kind, FIRST, UNITS * SECTOR)?,
        Maker::Cryptsetup | Maker::CryptsetupByDefault => {
            store(&image, &vec![0; bytes])?;
            let alignment = (maker == Maker::Cryptsetup).then_some("1");
            Cryptsetup { folder }.format(&image, kind, alignment, FIRST)?;
        }
        Maker::Ourselves => {
            store(&image, &random(bytes)?)?;
            hand.format(&image, kind, FIRST)?;
        }
        Maker::OurselvesBefore => store(&image, &made_before(random(bytes)?, kind)?)?,
    }
    match load(&image)?.len() {
        length if length == bytes => Ok(image),
        length => Err(format!("a drive {} has {length} bytes, not {bytes}", maker.name())),
    }
}

/// A drive as our format and add made it before Wish 4, by the model.
fn made_before(image: Vec<u8>, kind: Kind) -> Outcome<Vec<u8>> {
    let (profile, key, count) = (kind.profile(), random(kind.bits / 8)?, 1000);
    let uuid = b"6d69767a-6f68-4256-8000-00000000bef0".to_vec();
    let format = Call::Format { profile, stripes: 4000, key: key.clone(), salt: salt()?, count, uuid };
    let (passphrase, random) = (FIRST.as_bytes().to_vec(), random(3999 * key.len())?);
    let list = vec![0; (4000 * key.len() / SECTOR + 2) * ENTRY];
    let add = Call::Add { slot: 1, key, passphrase, salt: salt()?, count, random, list };
    let mut model = Model::aligned(1);
    [format, add].iter().try_fold(image, |image, call| {
        let out = model.step(&image, call);
        (out.number == 0).then_some(out.image).ok_or(format!("the model refuses a call by {}", out.number))
    })
}

impl Exchange<'_> {
    pub fn run(&mut self) -> Outcome<()> {
        self.start("on the new drive")?;
        self.opening()?;
        self.keys()?;
        self.payload()?;
        self.adding()?;
        self.changing()?;
        self.revoking()?;
        self.back_to_the_peers()?;
        self.start("after all this")?;
        let last = self.hand.read(&self.image, FOURTH, 0, UNITS as u64)?;
        self.checks.check("after all this the payload is as it was", last == self.plain)
    }

    /// The payload starts where its maker put it, for all who read the drive.
    fn start(&mut self, when: &str) -> Outcome<()> {
        let start = payload_start(self.maker, self.kind) as u64;
        let ours = u64::from(Header::read(&load(&self.image)?).payload);
        let dump = self.cryptsetup.payload_start(self.image())?;
        let c = &mut self.checks;
        c.check(&format!("{when}, the payload starts at sector {start}"), ours == start)?;
        c.check(&format!("{when}, luksDump shows that"), dump == start)?;
        let info = self.qemu.payload_start(self.image());
        if self.qemu_can() {
            return self.checks.check(&format!("{when}, qemu-img info shows that"), info? == start);
        }
        let refused = refused_with(info, "is overlapping with the encrypted payload");
        self.checks.check(&format!("{when}, qemu refuses a drive with that start"), refused)
    }

    fn image(&self) -> &Path {
        &self.image
    }

    /// A peer puts a passphrase into a slot.
    fn peer_adds(&self, peer: Peer, known: &str, slot: u8, new: &str) -> Outcome<()> {
        match peer {
            Peer::Qemu => self.qemu.add(self.image(), known, slot, new),
            Peer::Cryptsetup => self.cryptsetup.add(self.image(), known, slot, new),
        }
    }

    /// qemu reads no drive with the payload starts 2,051 and 4,037, which format gave before Wish 4.
    fn qemu_can(&self) -> bool {
        self.maker != Maker::OurselvesBefore
    }

    /// What we show of the slots is what cryptsetup shows, and qemu where it reads the drive.
    fn screens(&mut self, when: &str) -> Outcome<()> {
        let (slots, details) = (self.hand.slots(&self.image)?, self.hand.details(&self.image)?);
        let (dump, models) = (self.cryptsetup.slots(self.image())?, of_model(&load(&self.image)?));
        let c = &mut self.checks;
        c.check(&format!("{when}, we show the enabled slots that luksDump shows"), slots == enabled(&dump))?;
        c.check(&format!("{when}, we show its iterations, offsets and stripes"), agree(&details, &dump))?;
        c.check(&format!("{when}, we show what the model shows, of disabled slots too"), agree(&details, &models))?;
        if self.qemu_can() {
            let info = self.qemu.slots(self.image())?;
            self.checks.check(&format!("{when}, we show what qemu-img info shows"), agree(&details, &info))?;
        }
        Ok(())
    }

    fn opening(&mut self) -> Outcome<()> {
        self.screens("on the new drive")?;
        let [before_us, _] = self.maker.peers();
        self.peer_adds(before_us, FIRST, 8, SECOND)?;
        self.screens("after a peer's addition")?;
        let by_slot = |slot, passphrase| self.hand.open_slot(&self.image, slot, passphrase);
        let (first, eighth) = (by_slot(1, FIRST)?, by_slot(8, SECOND)?);
        let (wrong, disabled) = (by_slot(8, FIRST)?, by_slot(2, FIRST)?);
        let searches = [SECOND, WRONG].map(|passphrase| self.hand.open(&self.image, passphrase));
        let [found, lost] = searches;
        let c = &mut self.checks;
        c.check("slot 1 opens with its passphrase", first == Ok(1))?;
        c.check("slot 8, added by a peer, opens with its passphrase", eighth == Ok(8))?;
        c.check("slot 8 does not open with slot 1's", wrong == Err(17))?;
        c.check("a disabled slot is refused by 15", disabled == Err(15))?;
        c.check("the search finds slot 8", found? == Ok(8))?;
        c.check("the search refuses a wrong passphrase by 17", lost? == Err(17))
    }

    fn keys(&mut self) -> Outcome<()> {
        let theirs = self.cryptsetup.volume_key(self.image(), FIRST)?;
        let bytes = load(&self.image)?;
        let profile = Header::read(&bytes).profile().map(|p| p.number);
        let call = Call::Open { passphrase: SECOND.as_bytes().to_vec() };
        let models = Model::default().step(&bytes, &call);
        let ours = key_of(&bytes, SECOND)?;
        let uuids = (self.hand.uuid(&self.image)?, self.cryptsetup.uuid(self.image())?);
        let c = &mut self.checks;
        c.check("our UUID is cryptsetup's", uuids.0.len() == 36 && uuids.0 == uuids.1)?;
        c.check("the header has the profile", profile == Some(self.kind.profile()))?;
        c.check("the key has the right length", theirs.len() == self.kind.bits / 8)?;
        c.check("our key is cryptsetup's volume key", ours == theirs)?;
        c.check("the model's key too", models.opened[2..2 + theirs.len()] == theirs[..])
    }

    fn payload(&mut self) -> Outcome<()> {
        self.plain = random(UNITS * SECTOR)?;
        if self.qemu_can() {
            self.qemu.write(&self.image, FIRST, &self.plain)?;
        } else {
            self.hand.write(&self.image, FIRST, 0, &self.plain)?;
        }
        let all = self.hand.read(&self.image, FIRST, 0, UNITS as u64)?;
        let part = self.hand.read(&self.image, SECOND, 7, 5)?;
        let other = random(3 * SECTOR)?;
        self.hand.write(&self.image, FIRST, 10, &other)?;
        let written_by = if self.qemu_can() { "qemu" } else { "us" };
        self.checks.check(&format!("the payload that {written_by} wrote is read whole"), all == self.plain)?;
        self.checks.check("five units of it are read alone", part == self.plain[7 * SECTOR..12 * SECTOR])?;
        self.plain[10 * SECTOR..13 * SECTOR].copy_from_slice(&other);
        self.judge_payload("three units that we wrote are read", FIRST)
    }

    /// qemu, or where it cannot the model, reads the payload as it should be.
    fn judge_payload(&mut self, what: &str, passphrase: &str) -> Outcome<()> {
        if self.qemu_can() {
            let read = self.qemu.read(&self.image, passphrase)?;
            return self.checks.check(&format!("{what} by qemu"), read == self.plain);
        }
        let bytes = load(&self.image)?;
        let key = key_of(&bytes, passphrase)?;
        let call = Call::Read { key, first: 0, units: UNITS as u64, buffer: vec![0; UNITS * SECTOR] };
        let read = Model::default().step(&bytes, &call).buffer;
        self.checks.check(&format!("{what} by the model"), read == self.plain)
    }

    fn adding(&mut self) -> Outcome<()> {
        self.hand.add(&self.image, FIRST, 5, THIRD)?;
        let opens = self.cryptsetup.opens(self.image(), 5, THIRD)?;
        let wrong = self.cryptsetup.opens(self.image(), 5, WRONG)?;
        let enabled = self.cryptsetup.enabled(self.image())?;
        let c = &mut self.checks;
        c.check("cryptsetup opens the slot that we added", opens)?;
        c.check("and not with a wrong passphrase", !wrong)?;
        c.check("luksDump shows slots 1, 5 and 8 enabled", enabled == [1, 5, 8])?;
        self.screens("after our addition")?;
        self.judge_payload("the payload is read under the passphrase that we added", THIRD)
    }

    fn changing(&mut self) -> Outcome<()> {
        self.hand.change(&self.image, 1, FIRST, 3, FOURTH)?;
        let new = self.cryptsetup.opens(self.image(), 3, FOURTH)?;
        let old = self.cryptsetup.opens(self.image(), 1, FIRST)?;
        let enabled = self.cryptsetup.enabled(self.image())?;
        let c = &mut self.checks;
        c.check("cryptsetup opens the changed slot with the new passphrase", new)?;
        c.check("and no more with the old", !old)?;
        c.check("luksDump shows slots 3, 5 and 8 enabled", enabled == [3, 5, 8])?;
        self.screens("after our change")?;
        if self.qemu_can() {
            let reads = self.qemu.reads(self.image(), FIRST);
            self.checks.check("qemu refuses the old passphrase", !reads)?;
        }
        self.judge_payload("the payload is read under the changed passphrase", FOURTH)
    }

    fn revoking(&mut self) -> Outcome<()> {
        self.hand.revoke(&self.image, 8)?;
        let opens = self.cryptsetup.opens(self.image(), 8, SECOND)?;
        let enabled = self.cryptsetup.enabled(self.image())?;
        let h = Header::read(&load(&self.image)?);
        let kept = h.slots[7].start != 0 && h.slots[7].stripes == 4000;
        self.checks.check("cryptsetup does not open the slot that we revoked", !opens)?;
        self.checks.check("luksDump shows slots 3 and 5 enabled", enabled == [3, 5])?;
        self.checks.check("the revoked record keeps its start and stripes", kept)?;
        self.screens("after our revocation")
    }

    /// The peers go on with the drive that we changed, and we judge what they did.
    fn back_to_the_peers(&mut self) -> Outcome<()> {
        let [_, after_us] = self.maker.peers();
        self.peer_adds(after_us, FOURTH, 8, FIFTH)?;
        let added = self.hand.open_slot(&self.image, 8, FIFTH)?;
        self.checks.check("we open the slot that a peer added after us", added == Ok(8))?;
        self.screens("after a peer's addition to it")?;
        self.cryptsetup.change(self.image(), 5, THIRD, SIXTH)?;
        let (new, old) = (self.hand.open(&self.image, SIXTH)?, self.hand.open(&self.image, THIRD)?);
        self.checks.check("we open the slot that cryptsetup changed", new == Ok(5))?;
        self.checks.check("and no more with the old passphrase", old == Err(17))?;
        self.screens("after cryptsetup's change")?;
        match after_us {
            Peer::Qemu => self.qemu.remove(self.image(), FOURTH, 8)?,
            Peer::Cryptsetup => self.cryptsetup.kill(self.image(), 8)?,
        }
        let removed = self.hand.open_slot(&self.image, 8, FIFTH)?;
        self.checks.check("a slot that a peer removed is refused by 15", removed == Err(15))?;
        self.screens("after a peer's removal")
    }
}
