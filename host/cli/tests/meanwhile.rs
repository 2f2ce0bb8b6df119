//! A file that another program changes while the tool works, and that keeps to no lock: what the engine's checks judge is
//! what its calls use, so nothing outside of the image is touched, and nothing of the other program's is overwritten.
mod common;
#[path = "common/pty.rs"]
mod pty;
use common::*;
use pty::Session;
use std::fs::File;
use std::os::fd::AsRawFd;
use std::os::unix::fs::FileExt;
use std::path::Path;
use std::sync::atomic::{AtomicBool, Ordering};

const PAYLOAD_START_AT: u64 = 104;
const SLOT_START_AT: u64 = 248;
// Two payload starts that pass the checks, and one far outside of the image; likewise for slot 1's area.
const PAYLOAD_STARTS: [u32; 3] = [PAYLOAD_START as u32, PAYLOAD_START as u32 + 1, 0x7FFF_FFFF];
const SLOT_STARTS: [u32; 2] = [8, 0x7FFF_FFF0];
const RUNS: usize = 120;

// A drive whose checksum takes some milliseconds, so that a change in a call is likely.
fn slow_drive() -> Folder {
    let folder = Folder::with_drive();
    folder.put("drive", vec![0; LENGTH]);
    folder
        .line(&format!("format --iterations 1000 --checksum-iterations 8000 --stripes {STRIPES} --key-file one drive"))
        .accepted();
    folder.put("plain", pattern(PAYLOAD_UNITS * 512));
    folder.line("write --key-file one --in plain drive").accepted();
    folder
}

fn put_number(file: &File, at: u64, number: u32) {
    file.write_all_at(&number.to_be_bytes(), at).expect("the drive can be written");
}

extern "C" {
    fn mmap(address: *mut u8, length: usize, protection: i32, flags: i32, file: i32, offset: i64) -> *mut u8;
    fn munmap(address: *mut u8, length: usize) -> i32;
}

const PROT_READ_WRITE: i32 = 3;
const MAP_SHARED: i32 = 1;
const PAGE: usize = 4096;

// The file's first page, shared with all who read the file: a number in it changes in nanoseconds.
struct Shared(*mut u8);

impl Shared {
    fn of(file: &File) -> Shared {
        // SAFETY: a new mapping at an address of the system's choice takes no memory that is in use.
        let start = unsafe { mmap(std::ptr::null_mut(), PAGE, PROT_READ_WRITE, MAP_SHARED, file.as_raw_fd(), 0) };
        assert_ne!(start as isize, -1, "a shared mapping");
        Shared(start)
    }

    fn put(&self, at: u64, number: u32) {
        // SAFETY: both places lie within the page and are multiples of four.
        unsafe { self.0.add(at as usize).cast::<u32>().write_volatile(number.to_be()) };
    }
}

impl Drop for Shared {
    fn drop(&mut self) {
        // SAFETY: it is the mapping that was made.
        unsafe { munmap(self.0, PAGE) };
    }
}

// Does the work while another thread changes the two numbers of the header all the time: bad ones for some moments, good ones
// for as long. The moments differ, up to `longest`, so that they fall to all places of a call.
fn while_it_changes<T>(drive: &Path, longest: usize, work: impl FnOnce() -> T) -> T {
    let ended = AtomicBool::new(false);
    let file = File::options().read(true).write(true).open(drive).expect("the drive");
    std::thread::scope(|scope| {
        scope.spawn(|| {
            let shared = Shared::of(&file);
            for round in 0usize.. {
                if ended.load(Ordering::Relaxed) {
                    break;
                }
                shared.put(PAYLOAD_START_AT, PAYLOAD_STARTS[round % PAYLOAD_STARTS.len()]);
                shared.put(SLOT_START_AT, SLOT_STARTS[round / 2 % SLOT_STARTS.len()]);
                for _ in 0..round * 7919 % longest {
                    std::hint::spin_loop();
                }
            }
        });
        // The other thread ends also where the work panics.
        let done = std::panic::catch_unwind(std::panic::AssertUnwindSafe(work));
        ended.store(true, Ordering::Relaxed);
        done.unwrap_or_else(|panic| std::panic::resume_unwind(panic))
    })
}

// It was done, refused, or given up because of the change; it did not crash.
#[track_caller]
fn in_order(said: &Said) {
    let refusals = 1..=20;
    assert!(said.status == 0 || refusals.contains(&said.status) || [74, 75].contains(&said.status), "{said:?}");
}

// With each of the payload starts that pass.
fn with_each_start<T>(folder: &Folder, look: impl Fn(&Folder) -> T) -> Vec<T> {
    let file = File::options().write(true).open(folder.path("drive")).expect("the drive");
    let looked = PAYLOAD_STARTS[..2].iter().map(|&start| {
        put_number(&file, PAYLOAD_START_AT, start);
        look(folder)
    });
    let looked = looked.collect();
    put_number(&file, PAYLOAD_START_AT, PAYLOAD_STARTS[0]);
    looked
}

#[test]
fn test_does_not_crash() {
    let folder = slow_drive();
    let statuses = while_it_changes(&folder.path("drive"), 20, || {
        (0..RUNS).map(|_| folder.line("test --key-file one drive")).inspect(in_order).map(|said| said.status).collect()
    });
    // Both the good header and a bad one were met: else the test shows nothing.
    let statuses: Vec<i32> = statuses;
    assert!(statuses.contains(&0) && statuses.contains(&6), "{statuses:?}");
}

#[test]
fn read_gives_no_byte_from_outside() {
    let folder = slow_drive();
    let line = "read --key-file one --units 8 --force --out back drive";
    let expected = with_each_start(&folder, |folder| {
        folder.line(line).accepted();
        folder.get("back")
    });
    assert_ne!(expected[0], expected[1]);
    let mut done = 0;
    while_it_changes(&folder.path("drive"), 1000, || {
        for _ in 0..RUNS {
            folder.put("back", "");
            let said = folder.line(line);
            in_order(&said);
            if said.status == 0 {
                done += 1;
                assert!(expected.contains(&folder.get("back")), "bytes that are no unit of the payload");
            }
        }
    });
    assert!(done > 0, "no read was accepted");
}

#[test]
fn write_changes_nothing_but_its_units() {
    let folder = slow_drive();
    folder.put("units", [7; 4 * 512]);
    let line = "write --key-file one --first 2 --in units drive";
    let before = folder.get("drive");
    // The drive but for the two numbers.
    let masked = |mut image: Vec<u8>| {
        image[104..108].fill(0);
        image[248..252].fill(0);
        image
    };
    let mut expected = with_each_start(&folder, |folder| {
        folder.line(line).accepted();
        let after = masked(folder.get("drive"));
        folder.put("drive", &before);
        after
    });
    expected.push(masked(before.clone()));
    let mut done = 0;
    for _ in 0..RUNS {
        folder.put("drive", &before);
        let said = while_it_changes(&folder.path("drive"), 1000, || folder.line(line));
        in_order(&said);
        done += usize::from(said.status == 0);
        assert!(expected.contains(&masked(folder.get("drive"))), "{said:?}: other bytes were changed");
    }
    eprintln!("{done} of {RUNS} writes were accepted");
}

fn start(folder: &Folder, line: &str) -> Session {
    Session::start(tool().args(line.split_whitespace()).current_dir(folder.path("")), None)
}

// What the other program has written is not overwritten by what stood there before.
#[test]
fn a_header_that_was_changed_stays_as_the_other_made_it() {
    let folder = Folder::with_drive();
    folder.line("add --iterations 1000 --key-file one --new-key-file two drive").accepted();
    let mut image = folder.get("drive");
    image[168] ^= 1;
    let data = folder.put("data", pattern(512));
    assert!(data.exists());
    for (line, prompt, keys) in [
        ("add --iterations 1000 --key-file one drive", "New passphrase, for key slot 3: ", "three\n"),
        ("change --iterations 1000 --key-file one drive", "New passphrase, for key slot 3: ", "three\n"),
        ("revoke --slot 1 drive", "Type yes to go on: ", "yes\n"),
        ("write --in data drive", "Passphrase: ", "passphrase one\n"),
    ] {
        folder.put("drive", folder.get("drive"));
        let mut session = start(&folder, line);
        session.wait_for(prompt);
        let other = File::options().write(true).open(folder.path("drive")).expect("the drive");
        other.write_all_at(&image, 0).expect("the other program writes");
        session.keys(keys);
        if prompt.starts_with("New") {
            session.answer("The same again: ", keys);
        }
        let (status, shown) = session.end();
        assert_eq!(status, 75, "{shown}");
        assert!(shown.contains("another program has changed its header meanwhile; see to that"), "{shown}");
        assert!(folder.get("drive") == image, "{line}");
        image[168] = image[168].wrapping_add(1);
    }
}

#[test]
fn a_file_that_is_cut_short_while_the_tool_runs() {
    let folder = Folder::with_drive();
    let mut session = start(&folder, "add --iterations 1000 --key-file one drive");
    session.wait_for("New passphrase, for key slot 2: ");
    File::options().write(true).open(folder.path("drive")).and_then(|file| file.set_len(0)).expect("an empty file");
    session.keys("two\n");
    session.answer("The same again: ", "two\n");
    let (status, shown) = session.end();
    assert_eq!(status, 74, "{shown}");
    assert!(shown.contains("drive: another program has made it shorter; see to that and try again"), "{shown}");
    assert_eq!(folder.get("drive"), b"");
}
