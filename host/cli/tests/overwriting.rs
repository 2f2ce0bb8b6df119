//! What `format` and the other writing commands must not destroy: data that is there, devices that are in use, files behind
//! a loop device.
mod common;
#[path = "common/pty.rs"]
mod pty;
use common::*;
use pty::Session;
use std::fs::{File, OpenOptions};
use std::io::{Read, Seek, SeekFrom, Write};
use std::os::unix::fs::OpenOptionsExt;
use std::path::Path;
use std::process::Command;
use std::time::{Duration, Instant};

const O_EXCL: i32 = 0o200;
const FORMAT: &str = "format --iterations 1000 --stripes 40 --key-file one new";

// Places, and the bytes that stand there.
type Parts<'a> = &'a [(usize, &'a [u8])];

// A folder with a file of zeros but for these.
fn with_file(parts: Parts) -> Folder {
    let folder = Folder::with_drive();
    let mut bytes = vec![0; LENGTH];
    for (at, part) in parts {
        bytes[*at..at + part.len()].copy_from_slice(part);
    }
    folder.put("new", bytes);
    folder
}

#[test]
fn format_needs_force_over_anything_but_zeros() {
    let entry = [0x80, 0, 0, 0, 0x83];
    let cases: [(Parts, &str); 8] = [
        (&[(1080, b"\x53\xef")], "an ext2, ext3 or ext4 file system"),
        (&[(0, b"LUKS\xba\xbe\x00\x02")], "a LUKS drive"),
        (&[(512, b"EFI PART"), (510, b"\x55\xaa")], "a partition table (GPT)"),
        (&[(446, &entry), (510, b"\x55\xaa")], "a partition table (MBR)"),
        (&[(0, b"pedigrees")], "data"),
        (&[(2 * 512, b"\x01")], "data"),
        // Between the last key area and the payload, too, everything is zeroed.
        (&[((area(8).end + 1) * 512, b"\x01")], "data"),
        (&[(PAYLOAD_START * 512 - 1, b"\x01")], "data"),
    ];
    for (parts, what) in cases {
        let folder = with_file(parts);
        let before = folder.get("new");
        let words = format!("new holds {what}, which would be lost; use another file, or --force to overwrite it");
        folder.line(FORMAT).failed(73, &words);
        assert!(folder.get("new") == before, "{what}");
        folder.line(&format!("{FORMAT} --force")).accepted();
        assert_eq!(folder.line("test --key-file one new").accepted().out, "key slot 1 opens\n");
    }
}

#[test]
fn format_asks_for_nothing_where_only_the_payload_has_bytes() {
    let folder = with_file(&[(PAYLOAD_START * 512, b"payload")]);
    folder.line(FORMAT).accepted();
    assert_eq!(folder.get("new")[PAYLOAD_START * 512..][..7], *b"payload");
}

fn start(folder: &Folder, line: &str) -> Session {
    Session::start(tool().args(line.split_whitespace()).current_dir(folder.path("")), None)
}

#[test]
fn format_says_at_a_terminal_what_it_found() {
    let folder = with_file(&[(1080, b"\x53\xef")]);
    let before = folder.get("new");
    let question = "new holds an ext2, ext3 or ext4 file system, which will be lost. Type yes to go on: ";
    for (answer, status) in [("no\n", 65), ("yes\n", 0)] {
        let mut session = start(&folder, FORMAT);
        session.answer(question, answer);
        let (ended, shown) = session.end();
        assert_eq!(ended, status, "{shown}");
        assert_eq!(folder.get("new") == before, status != 0);
    }
}

#[test]
fn revoke_asks_at_a_terminal() {
    let folder = Folder::with_drive();
    for key_file in ["two", "three"] {
        folder.line(&format!("add --iterations 1000 --key-file one --new-key-file {key_file} drive")).accepted();
    }
    let before = folder.get("drive");
    let question = "Key slot 2 (cryptsetup's 1) of drive will be revoked; 2 other key slots stay in use. See first that one of \
                    them opens ('mivrozh test --slot N'): one whose revocation was cut short opens nothing. Type yes to go on: ";
    for answer in ["no\n", "\n", "y\n"] {
        let mut session = start(&folder, "revoke --slot 2 drive");
        session.answer(question, answer);
        let (status, shown) = session.end();
        assert_eq!(status, 65, "{shown}");
        assert!(shown.contains("not confirmed; nothing was changed"), "{shown}");
        assert!(folder.get("drive") == before);
    }
    let mut session = start(&folder, "revoke --slot 2 drive");
    session.answer(question, "yes\n");
    let (status, shown) = session.end();
    assert_eq!(status, 0, "{shown}");
    assert!(!folder.opens("two") && folder.opens("one") && folder.opens("three"));
}

// A loop device over a file, where the machine allows one.
struct Loop(String);

impl Loop {
    fn over(file: &Path) -> Option<Loop> {
        let output = Command::new("losetup").args(["--find", "--show"]).arg(file).output();
        let made = output.as_ref().ok().filter(|output| output.status.success());
        let name = made.map(|output| String::from_utf8_lossy(&output.stdout).trim().to_owned());
        let device = name.filter(|name| Path::new(name).exists()).map(Loop);
        if device.is_none() {
            missing(&format!("no loop device can be made here: {output:?}"));
        }
        device
    }
}

impl Drop for Loop {
    fn drop(&mut self) {
        let _ = Command::new("losetup").args(["--detach", &self.0]).status();
        // Whoever has the device open for a moment delays it.
        let file = Path::new("/sys/block").join(self.0.trim_start_matches("/dev/")).join("loop/backing_file");
        for _ in 0..1000 {
            if !file.exists() {
                break;
            }
            std::thread::sleep(Duration::from_millis(5));
        }
    }
}

// A mounted file system, where the machine allows that.
struct Mounted<'a>(&'a Path);

impl Drop for Mounted<'_> {
    fn drop(&mut self) {
        let _ = Command::new("umount").arg(self.0).status();
    }
}

#[test]
fn a_mounted_file_system_stays() {
    let folder = Folder::with_drive();
    File::create(folder.path("disk")).and_then(|file| file.set_len(8 << 20)).expect("a file with a hole");
    let made = Command::new("mkfs.ext4").args(["-q", "-F"]).arg(folder.path("disk")).output().expect("mkfs.ext4 runs");
    assert!(made.status.success(), "{made:?}");
    folder
        .line("format --key-file one disk")
        .failed(73, "disk holds an ext2, ext3 or ext4 file system, which would be");

    let Some(device) = Loop::over(&folder.path("disk")) else { return };
    let place = folder.path("mounted");
    std::fs::create_dir(&place).expect("a folder");
    let mounted = Command::new("mount").arg(&device.0).arg(&place).output().expect("mount runs");
    if !mounted.status.success() {
        return missing(&format!("nothing can be mounted here: {mounted:?}"));
    }
    let mounted = Mounted(&place);
    std::fs::write(place.join("pedigrees"), pattern(100_000)).expect("a file on the disk");
    for name in [&device.0, "disk"] {
        let line = format!("format --force --iterations 1000 --key-file one {name}");
        let words =
            if name == "disk" { "it is attached to /dev/loop" } else { "the device is in use, as by a mounted" };
        folder.line(&line).failed(75, words);
    }
    assert!(std::fs::read(place.join("pedigrees")).expect("the file") == pattern(100_000));
    drop(mounted);
    let checked = Command::new("fsck.ext4").args(["-f", "-n", &device.0]).output().expect("fsck.ext4 runs");
    assert!(checked.status.success(), "{checked:?}");
}

// Runs a line of words on a device that the test has held, as soon as it is free: a process that another test is just starting may
// hold it for a moment longer.
fn accepted_once_free(folder: &Folder, line: &str) {
    let (start, mut said) = (Instant::now(), folder.line(line));
    while said.status != 0 && start.elapsed() < Duration::from_secs(10) {
        said = folder.line(line);
    }
    said.accepted();
}

// What the block device holds.
fn contents(device: &Loop, length: usize) -> Vec<u8> {
    let mut bytes = vec![0; length];
    let mut file = File::open(&device.0).expect("the device");
    file.seek(SeekFrom::Start(0)).and_then(|_| file.read_exact(&mut bytes)).expect("its bytes");
    bytes
}

#[test]
fn every_command_works_on_a_block_device_that_nothing_else_uses() {
    let folder = Folder::with_drive();
    folder.put("disk", vec![0; LENGTH]);
    folder.put("data", pattern(PAYLOAD_UNITS * 512));
    let Some(device) = Loop::over(&folder.path("disk")) else { return };
    let run = |line: &str| folder.line(&format!("{line} {}", device.0)).accepted();
    run(&format!("format --iterations 1000 --stripes {STRIPES} --key-file one"));
    run("add --iterations 1000 --key-file one --new-key-file two");
    run("change --iterations 1000 --key-file two --new-key-file three");
    run("write --key-file three --in data");
    run("revoke --force --slot 1");
    assert_eq!(run("test --key-file three").out, "key slot 3 opens\n");
    run("read --key-file three --out back");
    assert!(folder.get("back") == folder.get("data"));

    // Somebody holds the device as a mounted file system does.
    let before = contents(&device, LENGTH);
    let held = OpenOptions::new().read(true).custom_flags(O_EXCL).open(&device.0).expect("the device");
    for line in [
        "format --force --iterations 1000 --stripes 40 --key-file one",
        "add --iterations 1000 --key-file three --new-key-file two",
        "change --iterations 1000 --key-file three --new-key-file two",
        "revoke --force --slot 3",
        "write --key-file three --in data",
    ] {
        folder.line(&format!("{line} {}", device.0)).failed(75, "the device is in use, as by a mounted file system");
    }
    run("test --key-file three");
    folder.line(&format!("read --key-file three --out again {}", device.0)).accepted();
    drop(held);
    assert!(contents(&device, LENGTH) == before);
    let line = format!("add --iterations 1000 --key-file three --new-key-file two {}", device.0);
    accepted_once_free(&folder, &line);
}

#[test]
fn a_file_behind_a_loop_device_is_not_written() {
    let folder = Folder::with_drive();
    let Some(device) = Loop::over(&folder.path("drive")) else { return };
    let before = folder.get("drive");
    for line in ["revoke --force --slot 1 drive", "add --key-file one --new-key-file two drive"] {
        folder.line(line).failed(75, &format!("it is attached to {}; detach it (losetup -d {0})", device.0));
    }
    folder.line("test --key-file one drive").accepted();
    drop(device);
    assert!(folder.get("drive") == before);
    folder.line("add --iterations 1000 --key-file one --new-key-file two drive").accepted();
}

// A read into a block device that is in use.
#[test]
fn a_block_device_for_the_output() {
    let folder = Folder::with_drive();
    folder.put("disk", vec![0; PAYLOAD_UNITS * 512]);
    let Some(device) = Loop::over(&folder.path("disk")) else { return };
    let line = format!("read --key-file one --out {} drive", device.0);
    folder.line(&line).failed(73, "it is there already; choose another file, or use --force");
    let mut held = OpenOptions::new().read(true).write(true).custom_flags(O_EXCL).open(&device.0).expect("the device");
    folder.line(&format!("{line} --force")).failed(73, "it cannot be opened for writing");
    held.flush().expect("the device");
    drop(held);
    accepted_once_free(&folder, &format!("{line} --force"));
}
