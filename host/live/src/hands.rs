//! Our side, by two hands: the library's calls, and the command-line tool.

use crate::screens::{self, Shown};
use crate::work::{load, output, random, salt, store, text, Folder, Kind, Outcome};
use mivrozh::{raw, Drive, Refusal};
use model::header::Header;
use model::writes::{self, carry_out, decoded};
use model::xts::SECTOR;
use model::{costs, Call};
use std::path::{Path, PathBuf};

const COUNT: u32 = 1000;

/// Our calls on an image file. An opening gives the slot, or the number of the refusal as an error.
pub trait Hand {
    fn name(&self) -> &'static str;
    fn format(&self, image: &Path, kind: Kind, passphrase: &str) -> Outcome<()>;
    fn open_slot(&self, image: &Path, slot: u8, passphrase: &str) -> Outcome<Result<u8, u8>>;
    fn open(&self, image: &Path, passphrase: &str) -> Outcome<Result<u8, u8>>;
    fn add(&self, image: &Path, known: &str, slot: u8, new: &str) -> Outcome<()>;
    fn change(&self, image: &Path, from: u8, old: &str, to: u8, new: &str) -> Outcome<()>;
    fn revoke(&self, image: &Path, slot: u8) -> Outcome<()>;
    fn read(&self, image: &Path, passphrase: &str, first: u64, units: u64) -> Outcome<Vec<u8>>;
    fn write(&self, image: &Path, passphrase: &str, first: u64, plain: &[u8]) -> Outcome<()>;
    /// The first screen: the enabled slots.
    fn slots(&self, image: &Path) -> Outcome<Vec<u8>>;
    /// The second screen.
    fn details(&self, image: &Path) -> Outcome<Vec<Shown>>;
    fn uuid(&self, image: &Path) -> Outcome<String>;
}

pub struct Library;

/// 0 is success; any other number a failure of the call named.
fn accepted(call: &str, number: u8) -> Outcome<()> {
    if number == 0 {
        Ok(())
    } else {
        Err(format!("the library refuses {call} by {number}"))
    }
}

/// The key that a passphrase opens, by search.
pub fn key_of(image: &[u8], passphrase: &str) -> Outcome<Vec<u8>> {
    let mut opened = [0; 66];
    accepted("open", raw::open(image, passphrase.as_bytes(), &mut opened, &mut 0))?;
    Ok(opened[2..2 + opened[1] as usize].to_vec())
}

fn answer(number: u8, opened: [u8; 66]) -> Result<u8, u8> {
    if number == 0 {
        Ok(opened[0])
    } else {
        Err(number)
    }
}

/// The number of HMAC values that an opening made is what 02's Wish 6 says of it, whoever made the drive.
fn judge_values(image: &[u8], opening: &Call, number: u8, opened: u8, values: u64) -> Outcome<()> {
    let said = costs::said(&Header::read(image), opening, number, opened);
    match values == said {
        true => Ok(()),
        false => Err(format!("an opening that ends with {number} has made {values} HMAC values, not {said}")),
    }
}

/// The bytes of a slot's stripes, all of them or without the last.
fn stripes_of(image: &[u8], slot: u8, without: u32) -> usize {
    let h = Header::read(image);
    h.slot(slot).map_or(0, |s| (s.stripes - without) as usize * h.key_bytes as usize)
}

/// A buffer for the list of the work on these slots.
pub fn list_for(image: &[u8], slots: &[u8]) -> Vec<u8> {
    let h = Header::read(image);
    let length = |k: &u8| h.slot(*k).map_or(0, |slot| writes::length(slot, h.key_bytes));
    vec![0; slots.iter().map(length).sum::<u128>() as usize]
}

/// Carries out the list of an accepted call on the file, which has the image from before; that must make the image after.
fn store_list(path: &Path, list: &[u8], after: &[u8]) -> Outcome<()> {
    let mut bytes = load(path)?;
    carry_out(&mut bytes, &decoded(list));
    if bytes != after {
        return Err("the list, carried out on the image before, does not make the one after".into());
    }
    store(path, &bytes)
}

impl Hand for Library {
    fn name(&self) -> &'static str {
        "library"
    }

    fn format(&self, image: &Path, kind: Kind, passphrase: &str) -> Outcome<()> {
        let mut bytes = load(image)?;
        let key = random(kind.bits / 8)?;
        let uuid = b"6d69767a-6f68-4256-8000-0000000011fe";
        accepted("format", raw::format(&mut bytes, kind.profile(), 4000, &key, &salt()?, COUNT, uuid, &mut 0))?;
        let (stripes, mut list) = (random(stripes_of(&bytes, 1, 1))?, list_for(&bytes, &[1]));
        accepted(
            "add",
            raw::add(&mut bytes, 1, &key, passphrase.as_bytes(), &salt()?, COUNT, &stripes, &mut list, &mut 0),
        )?;
        store(image, &bytes)
    }

    fn open_slot(&self, image: &Path, slot: u8, passphrase: &str) -> Outcome<Result<u8, u8>> {
        let (bytes, passphrase, mut opened, mut values) = (load(image)?, passphrase.as_bytes().to_vec(), [0; 66], 0);
        let number = raw::open_slot(&bytes, slot, &passphrase, &mut opened, &mut values);
        judge_values(&bytes, &Call::OpenSlot { slot, passphrase }, number, opened[0], values)?;
        Ok(answer(number, opened))
    }

    fn open(&self, image: &Path, passphrase: &str) -> Outcome<Result<u8, u8>> {
        let (bytes, passphrase, mut opened, mut values) = (load(image)?, passphrase.as_bytes().to_vec(), [0; 66], 0);
        let number = raw::open(&bytes, &passphrase, &mut opened, &mut values);
        judge_values(&bytes, &Call::Open { passphrase }, number, opened[0], values)?;
        Ok(answer(number, opened))
    }

    fn add(&self, image: &Path, known: &str, slot: u8, new: &str) -> Outcome<()> {
        let mut bytes = load(image)?;
        let key = key_of(&bytes, known)?;
        let (stripes, mut list) = (random(stripes_of(&bytes, slot, 1))?, list_for(&bytes, &[slot]));
        accepted(
            "add",
            raw::add(&mut bytes, slot, &key, new.as_bytes(), &salt()?, COUNT, &stripes, &mut list, &mut 0),
        )?;
        store_list(image, &list, &bytes)
    }

    fn change(&self, image: &Path, from: u8, old: &str, to: u8, new: &str) -> Outcome<()> {
        let mut bytes = load(image)?;
        let (stripes, filler) = (random(stripes_of(&bytes, to, 1))?, random(stripes_of(&bytes, from, 0))?);
        let (old, new, mut list) = (old.as_bytes(), new.as_bytes(), list_for(&bytes, &[to, from]));
        accepted(
            "change",
            raw::change(&mut bytes, from, old, to, new, &salt()?, COUNT, &stripes, &filler, &mut list, &mut 0),
        )?;
        store_list(image, &list, &bytes)
    }

    fn revoke(&self, image: &Path, slot: u8) -> Outcome<()> {
        let mut bytes = load(image)?;
        let (filler, mut list) = (random(stripes_of(&bytes, slot, 0))?, list_for(&bytes, &[slot]));
        accepted("revoke", raw::revoke(&mut bytes, slot, &filler, &mut list, &mut 0))?;
        store_list(image, &list, &bytes)
    }

    fn read(&self, image: &Path, passphrase: &str, first: u64, units: u64) -> Outcome<Vec<u8>> {
        let bytes = load(image)?;
        let mut plain = vec![0; units as usize * SECTOR];
        accepted("read", raw::read(&bytes, &key_of(&bytes, passphrase)?, first, units, &mut plain, &mut 0))?;
        Ok(plain)
    }

    fn write(&self, image: &Path, passphrase: &str, first: u64, plain: &[u8]) -> Outcome<()> {
        let mut bytes = load(image)?;
        let key = key_of(&bytes, passphrase)?;
        accepted("write", raw::write(&mut bytes, &key, first, (plain.len() / SECTOR) as u64, plain, &mut 0))?;
        store(image, &bytes)
    }

    fn slots(&self, image: &Path) -> Outcome<Vec<u8>> {
        Drive::over(load(image)?).slots().map(|slots| slots.enabled().collect()).map_err(refused)
    }

    fn details(&self, image: &Path) -> Outcome<Vec<Shown>> {
        let details = Drive::over(load(image)?).slot_details().map_err(refused)?;
        Ok(details.iter().map(|(_, slot)| Shown::whole(slot.enabled, slot.count, slot.start, slot.stripes)).collect())
    }

    fn uuid(&self, image: &Path) -> Outcome<String> {
        let header = Drive::over(load(image)?).header().map_err(refused)?;
        Ok(header.uuid().escape_ascii().to_string())
    }
}

fn refused(refusal: Refusal) -> String {
    format!("the library refuses the header by {}", refusal.number())
}

/// The tool `mivrozh`, which stands beside this program.
pub struct Tool<'a> {
    pub folder: &'a Folder,
    pub program: PathBuf,
}

impl<'a> Tool<'a> {
    pub fn new(folder: &'a Folder) -> Outcome<Tool<'a>> {
        let here = std::env::current_exe().map_err(|e| format!("this program does not know its place: {e}"))?;
        let program = here.with_file_name("mivrozh");
        if !program.is_file() {
            return Err(format!("{} is missing: build the workspace first", program.display()));
        }
        Ok(Tool { folder, program })
    }

    /// Runs a command: what it printed, or the number it was refused by.
    fn command(&self, arguments: &[&str]) -> Outcome<Result<String, u8>> {
        let out = output(text(&self.program), arguments)?;
        match out.status.code() {
            Some(0) => Ok(Ok(String::from_utf8_lossy(&out.stdout).into_owned())),
            Some(number @ 1..=20) => Ok(Err(number as u8)),
            _ => Err(format!("mivrozh: {}: {}", out.status, String::from_utf8_lossy(&out.stderr).trim())),
        }
    }

    /// What an accepted command printed.
    fn printed(&self, arguments: &[&str]) -> Outcome<String> {
        let refused = |number| format!("mivrozh {} is refused by {number}", arguments.join(" "));
        self.command(arguments)?.map_err(refused)
    }

    fn accepted(&self, arguments: &[&str]) -> Outcome<()> {
        self.printed(arguments).map(|_| ())
    }

    fn passphrase(&self, passphrase: &str) -> Outcome<String> {
        Ok(text(&self.folder.file("our passphrase", passphrase.as_bytes())?).to_string())
    }

    fn new_passphrase(&self, passphrase: &str) -> Outcome<String> {
        Ok(text(&self.folder.file("our new passphrase", passphrase.as_bytes())?).to_string())
    }

    /// The slots that a command prints as JSON.
    fn shown(&self, arguments: &[&str]) -> Outcome<Vec<Shown>> {
        let said = self.printed(arguments)?;
        screens::of_tool(&said).ok_or_else(|| format!("mivrozh slots printed no slots: {said}"))
    }

    /// The slot that `test` prints: the only number in its answer.
    fn tested(&self, arguments: &[&str]) -> Outcome<Result<u8, u8>> {
        match self.command(arguments)? {
            Err(number) => Ok(Err(number)),
            Ok(said) => {
                let digits: String = said.chars().filter(char::is_ascii_digit).collect();
                digits.parse().map(Ok).map_err(|_| format!("mivrozh test printed no slot: {said}"))
            }
        }
    }
}

impl Hand for Tool<'_> {
    fn name(&self) -> &'static str {
        "tool"
    }

    fn format(&self, image: &Path, kind: Kind, passphrase: &str) -> Outcome<()> {
        let (file, bits) = (self.passphrase(passphrase)?, kind.bits.to_string());
        let options = ["--force", "--hash", kind.hash.name(), "--key-size", &bits, "--iterations", "1000"];
        self.accepted(&[&["format"], &options[..], &["--key-file", &file, text(image)]].concat())
    }

    fn open_slot(&self, image: &Path, slot: u8, passphrase: &str) -> Outcome<Result<u8, u8>> {
        let (file, slot) = (self.passphrase(passphrase)?, slot.to_string());
        self.tested(&["test", "--slot", &slot, "--key-file", &file, text(image)])
    }

    fn open(&self, image: &Path, passphrase: &str) -> Outcome<Result<u8, u8>> {
        self.tested(&["test", "--key-file", &self.passphrase(passphrase)?, text(image)])
    }

    fn add(&self, image: &Path, known: &str, slot: u8, new: &str) -> Outcome<()> {
        let (known, new, slot) = (self.passphrase(known)?, self.new_passphrase(new)?, slot.to_string());
        let options = ["--slot", &slot, "--iterations", "1000", "--key-file", &known, "--new-key-file", &new];
        self.accepted(&[&["add"], &options[..], &[text(image)]].concat())
    }

    fn change(&self, image: &Path, from: u8, old: &str, to: u8, new: &str) -> Outcome<()> {
        let (old, new) = (self.passphrase(old)?, self.new_passphrase(new)?);
        let (from, to) = (from.to_string(), to.to_string());
        let slots = ["--slot", &from, "--to", &to, "--iterations", "1000"];
        self.accepted(&[&["change"], &slots[..], &["--key-file", &old, "--new-key-file", &new, text(image)]].concat())
    }

    fn revoke(&self, image: &Path, slot: u8) -> Outcome<()> {
        self.accepted(&["revoke", "--force", "--slot", &slot.to_string(), text(image)])
    }

    fn read(&self, image: &Path, passphrase: &str, first: u64, units: u64) -> Outcome<Vec<u8>> {
        let (file, first, units) = (self.passphrase(passphrase)?, first.to_string(), units.to_string());
        let out = self.folder.path.join("plain read by us");
        let options = ["--first", &first, "--units", &units, "--key-file", &file, "--force", "--out", text(&out)];
        self.accepted(&[&["read"], &options[..], &[text(image)]].concat())?;
        load(&out)
    }

    fn write(&self, image: &Path, passphrase: &str, first: u64, plain: &[u8]) -> Outcome<()> {
        let (file, first) = (self.passphrase(passphrase)?, first.to_string());
        let plain = self.folder.file("plain for us", plain)?;
        let options = ["--first", &first, "--key-file", &file, "--in", text(&plain)];
        self.accepted(&[&["write"], &options[..], &[text(image)]].concat())
    }

    fn slots(&self, image: &Path) -> Outcome<Vec<u8>> {
        self.shown(&["slots", "--json", text(image)]).map(|slots| screens::enabled(&slots))
    }

    fn details(&self, image: &Path) -> Outcome<Vec<Shown>> {
        self.shown(&["slots", "--details", "--json", text(image)])
    }

    fn uuid(&self, image: &Path) -> Outcome<String> {
        self.printed(&["uuid", text(image)]).map(|said| said.trim().to_owned())
    }
}
