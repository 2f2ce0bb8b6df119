//! What every check needs: a folder that is removed in the end, random bytes, commands that say why they failed, and
//! named checks.

use model::hash::Hash;
use model::header::{Profile, PROFILES};
use std::fs::File;
use std::io::Read;
use std::path::{Path, PathBuf};
use std::process::{Command, Output};

/// How many slots a drive has.
pub const SLOTS: usize = 8;

/// A failure, as one sentence.
pub type Outcome<T> = Result<T, String>;

/// What kind of drive: its hash, and the bits of its key.
#[derive(Clone, Copy, Debug, PartialEq)]
pub struct Kind {
    pub hash: Hash,
    pub bits: usize,
}

impl Kind {
    pub fn of(profile: &Profile) -> Kind {
        Kind { hash: profile.hash, bits: 8 * profile.key_bytes }
    }

    pub fn all() -> [Kind; PROFILES.len()] {
        PROFILES.each_ref().map(Kind::of)
    }

    /// The number of its profile.
    pub fn profile(self) -> u8 {
        PROFILES.iter().find(|p| Kind::of(p) == self).expect("every kind has a profile").number
    }
}

impl std::fmt::Display for Kind {
    fn fmt(&self, f: &mut std::fmt::Formatter<'_>) -> std::fmt::Result {
        write!(f, "{}, {} bits", self.hash.name(), self.bits)
    }
}

pub struct Folder {
    pub path: PathBuf,
}

impl Folder {
    pub fn new() -> Outcome<Folder> {
        let name: String = random(8)?.iter().map(|b| format!("{b:02x}")).collect();
        let path = std::env::temp_dir().join(format!("mivrozh-live-{name}"));
        std::fs::create_dir(&path).map_err(|e| format!("{} cannot be made: {e}", path.display()))?;
        Ok(Folder { path })
    }

    /// A file with these bytes, named after what it is for.
    pub fn file(&self, name: &str, bytes: &[u8]) -> Outcome<PathBuf> {
        let path = self.path.join(name);
        std::fs::write(&path, bytes).map_err(|e| format!("{} cannot be written: {e}", path.display()))?;
        Ok(path)
    }
}

impl Drop for Folder {
    fn drop(&mut self) {
        let _ = std::fs::remove_dir_all(&self.path);
    }
}

pub fn load(path: &Path) -> Outcome<Vec<u8>> {
    std::fs::read(path).map_err(|e| format!("{} cannot be read: {e}", path.display()))
}

pub fn store(path: &Path, bytes: &[u8]) -> Outcome<()> {
    std::fs::write(path, bytes).map_err(|e| format!("{} cannot be written: {e}", path.display()))
}

/// Bytes from the operating system.
pub fn random(length: usize) -> Outcome<Vec<u8>> {
    let mut bytes = vec![0; length];
    let read = File::open("/dev/urandom").and_then(|mut source| source.read_exact(&mut bytes));
    read.map(|()| bytes).map_err(|e| format!("/dev/urandom cannot be read: {e}"))
}

pub fn salt() -> Outcome<[u8; 32]> {
    random(32).map(|bytes| bytes.try_into().expect("32 bytes were read"))
}

pub fn output(program: &str, arguments: &[&str]) -> Outcome<Output> {
    let out = Command::new(program).args(arguments).output();
    out.map_err(|e| format!("{program} cannot be run: {e}"))
}

/// Runs a command that must succeed, and gives what it printed.
pub fn run(program: &str, arguments: &[&str]) -> Outcome<String> {
    let out = output(program, arguments)?;
    if out.status.success() {
        return Ok(String::from_utf8_lossy(&out.stdout).into_owned());
    }
    let said = String::from_utf8_lossy(&out.stderr);
    Err(format!("{program} {}: {}: {}", arguments.join(" "), out.status, said.trim()))
}

/// Has it failed, with these words?
pub fn refused_with<T>(outcome: Outcome<T>, words: &str) -> bool {
    outcome.is_err_and(|said| said.contains(words))
}

pub fn text(path: &Path) -> &str {
    path.to_str().expect("the folder's path is text")
}

/// Prints each check by its name, and stops at the first that fails.
pub struct Checks {
    pub drive: String,
    pub passed: usize,
}

impl Checks {
    pub fn check(&mut self, name: &str, holds: bool) -> Outcome<()> {
        let line = format!("{}: {name}", self.drive);
        if !holds {
            return Err(line);
        }
        println!("ok  {line}");
        self.passed += 1;
        Ok(())
    }
}
