//! Benchmarks. Every ratio compares figures of this run, each the least time of several runs; above 1 we are faster.
//!
//!     bench [pbkdf2] [payload] [areas] [slots] [counts] [units] [transfers]
//!
//! Without a name it measures all parts. Needs the commands openssl and cryptsetup. OpenSSL's PBKDF2 is timed by
//! `openssl kdf` with a large count less a small one, its AES-XTS by `openssl speed` on pieces of 512 bytes. Ours is
//! timed through the calls, since the library exports nothing else: PBKDF2 by an opening of a drive of one stripe with
//! a large count less a small one.

mod areas;
mod drive;
mod payload;
mod peers;
mod timing;
mod transfer;

use drive::Drive;
use mivrozh::{Hash, Profile};
use std::path::{Path, PathBuf};
use std::process::{Command, ExitCode};
use timing::{by_turns, least};

type Outcome = Result<(), String>;

/// Short runs are many, so that some of them are undisturbed; long ones are fewer.
const SHORT: usize = 100;
const RUNS: usize = 20;
const LARGE: u32 = 40_000;
const SMALL: u32 = 1_000;

/// A derived key takes a value of HMAC for each count and each block as long as a digest.
fn pbkdf2(profile: Profile) -> Outcome {
    let (name, digest) = match profile.hash() {
        Hash::Sha1 => ("SHA-1", 20),
        Hash::Sha256 => ("SHA-256", 32),
        other => return Err(format!("how long a digest of {other:?} is must be said here")),
    };
    let bytes = profile.key_bytes();
    println!("PBKDF2-HMAC-{name}, key of {bytes} bytes, million HMAC values a second (two compressions each):");
    let (large, small) = (Drive::new(profile, 1, LARGE, 0)?, Drive::new(profile, 1, SMALL, 0)?);
    let values = (LARGE - SMALL) as f64 * bytes.div_ceil(digest) as f64;
    for without in [peers::NOTHING, peers::SHA_EXTENSIONS] {
        let (ours, theirs) = by_turns(RUNS, &mut || large.open(), &mut || peers::kdf(without, profile, LARGE))?;
        let (less, start) = by_turns(SHORT, &mut || small.open(), &mut || peers::kdf(without, profile, SMALL))?;
        let (ours, theirs) = (values / (ours - less) / 1e6, values / (theirs - start) / 1e6);
        println!("  ours {ours:6.2}   OpenSSL {theirs:6.2}   ratio {:5.2}   OpenSSL {}", ours / theirs, without.name);
    }
    Ok(())
}

/// A folder that is removed in the end.
struct Folder(PathBuf);

impl Folder {
    fn new() -> Result<Folder, String> {
        let path = std::env::temp_dir().join(format!("mivrozh-bench-{}", std::process::id()));
        std::fs::create_dir(&path).map_err(|e| format!("{} cannot be made: {e}", path.display()))?;
        Ok(Folder(path))
    }

    fn file(&self, name: &str, bytes: &[u8]) -> Result<PathBuf, String> {
        let path = self.0.join(name);
        std::fs::write(&path, bytes).map_err(|e| format!("{} cannot be written: {e}", path.display()))?;
        Ok(path)
    }
}

impl Drop for Folder {
    fn drop(&mut self) {
        let _ = std::fs::remove_dir_all(&self.0);
    }
}

fn print_pair(what: &str, ours: f64, theirs: f64) {
    println!("  {what:28} ours {:7.1}   cryptsetup {:7.1}   ratio {:5.2}", ours * 1e3, theirs * 1e3, theirs / ours);
}

/// The tool, which stands beside this program.
fn tool() -> Result<PathBuf, String> {
    let here = std::env::current_exe().map_err(|e| format!("this program does not know its place: {e}"))?;
    let tool = here.with_file_name("mivrozh");
    if tool.is_file() {
        Ok(tool)
    } else {
        Err(format!("{} is missing: build the workspace first", tool.display()))
    }
}

/// Opening a drive of each profile, and adding to the one that has been measured from the start.
fn slots() -> Outcome {
    println!("Key slots of drives that cryptsetup made (4,000 stripes, count 100,000), milliseconds:");
    let folder = Folder::new()?;
    let (first, new) = (folder.file("first", b"first")?, folder.file("new", b"new")?);
    for &profile in Profile::ALL {
        println!(" {}, {}-bit key:", profile.hash().name(), 8 * profile.key_bytes());
        let image = folder.file("drive", &vec![0; 4200 * 512])?;
        peers::format(profile, &image, &first, "100000")?;
        let bytes = std::fs::read(&image).map_err(|e| e.to_string())?;
        opening(&image, &bytes, &first)?;
        if profile == Profile::Key512 {
            adding(&folder, &bytes, &first, &new)?;
        }
    }
    Ok(())
}

fn opening(image: &Path, bytes: &[u8], first: &Path) -> Outcome {
    let mut theirs = || peers::test_passphrase(image, first);
    let (ours, other) = by_turns(RUNS, &mut || drive::open(bytes, b"first").map(|_| ()), &mut theirs)?;
    print_pair("open, the library's call", ours, other);
    let tool = tool()?;
    let mut test = || peers::run(Command::new(&tool).args(["test", "--key-file"]).args([first, image])).map(|_| ());
    let (ours, other) = by_turns(RUNS, &mut test, &mut theirs)?;
    print_pair("open, the tool's test", ours, other);
    Ok(())
}

/// Adding, each time to a fresh copy; copying is not timed on either side but for the library's, which copies in
/// memory.
fn adding(folder: &Folder, bytes: &[u8], first: &Path, new: &Path) -> Outcome {
    let (tool, random) = (tool()?, vec![0x11; 3999 * 64]);
    let least = |times: [f64; RUNS]| times.into_iter().fold(f64::INFINITY, f64::min);
    let (mut library, mut by_tool, mut theirs) = ([0.0; RUNS], [0.0; RUNS], [0.0; RUNS]);
    for i in 0..RUNS {
        library[i] = timing::once(&mut || drive::open_and_add(bytes, b"first", b"new", 100_000, &random))?;
        let copy = folder.file("copy", bytes)?;
        by_tool[i] = timing::once(&mut || {
            let mut command = Command::new(&tool);
            command.args(["add", "--slot", "2", "--iterations", "100000", "--key-file"]).arg(first);
            peers::run(command.arg("--new-key-file").args([new, &copy])).map(|_| ())
        })?;
        let copy = folder.file("copy", bytes)?;
        theirs[i] = timing::once(&mut || peers::add(&copy, first, new, "100000"))?;
    }
    print_pair("add, the library's two calls", least(library), least(theirs));
    print_pair("add, the tool's add", least(by_tool), least(theirs));
    Ok(())
}

fn against_count() -> Outcome {
    println!("Opening against the count (512-bit key, one stripe, checksum count 1,000):");
    for profile in [Profile::Key512, Profile::Sha256Key512] {
        for (count, runs) in [(1_000, SHORT), (10_000, RUNS), (100_000, RUNS), (1_000_000, 3)] {
            let drive = Drive::new(profile, 1, count, 0)?;
            let seconds = least(runs, &mut || drive.open())?;
            let (hash, each) = (profile.hash().name(), seconds * 1e6 / count as f64);
            println!("  {hash:6} count {count:9}   {:9.2} ms   {each:6.2} microseconds a count", seconds * 1e3);
        }
    }
    Ok(())
}

fn against_units() -> Outcome {
    println!("Reading against the number of units (512-bit key, checksum count 1,000):");
    let most = 16_384;
    let drive = Drive::new(Profile::Key512, 1, SMALL, most)?;
    let mut buffer = vec![0; most * 512];
    let checksum = least(SHORT, &mut || drive.read(0, &mut []))?;
    println!("  units       0   {:9.3} ms   the checksum", checksum * 1e3);
    for (units, runs) in [(1, SHORT), (16, SHORT), (256, SHORT), (4_096, RUNS), (most, RUNS)] {
        let seconds = least(runs, &mut || drive.read(units, &mut buffer))?;
        let each = (seconds - checksum) * 1e6 / units as f64;
        println!("  units {units:7}   {:9.3} ms   {each:7.2} microseconds a unit beyond it", seconds * 1e3);
    }
    Ok(())
}

type Part = (&'static str, fn() -> Outcome);

const PARTS: [Part; 7] = [
    ("pbkdf2", || Profile::ALL.iter().try_for_each(|&profile| pbkdf2(profile))),
    ("payload", || [Profile::Key256, Profile::Key512].into_iter().try_for_each(payload::payload)),
    ("areas", areas::areas),
    ("slots", slots),
    ("counts", against_count),
    ("units", against_units),
    ("transfers", transfer::transfers),
];

fn run() -> Outcome {
    let cpu = std::fs::read_to_string("/proc/cpuinfo").unwrap_or_default();
    let name = cpu.lines().find_map(|l| l.strip_prefix("model name")).unwrap_or(": unknown");
    println!("processor{name}");
    println!("{}", peers::run(Command::new("openssl").arg("version"))?.trim());
    println!("{}", peers::run(Command::new("cryptsetup").arg("--version"))?.trim());
    let given: Vec<String> = std::env::args().skip(1).collect();
    if let Some(unknown) = given.iter().find(|name| PARTS.iter().all(|(part, _)| part != name)) {
        return Err(format!("there is no part {unknown}"));
    }
    let chosen = |part: &str| given.is_empty() || given.iter().any(|name| name == part);
    PARTS.iter().filter(|(part, _)| chosen(part)).try_for_each(|(_, measure)| measure())
}

fn main() -> ExitCode {
    match run() {
        Ok(()) => ExitCode::SUCCESS,
        Err(message) => {
            println!("FAILED  {message}");
            ExitCode::FAILURE
        }
    }
}
