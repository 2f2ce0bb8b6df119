//! Locks: other runs of the tool, programs that lock files as it does, and qemu.
mod common;
use common::*;
use std::fs::File;
use std::io::{BufRead, BufReader, Write};
use std::process::{Child, Command, Stdio};
use std::time::{Duration, Instant};

const WRITING: [&str; 4] = [
    "add --iterations 1000 --key-file one --new-key-file two drive",
    "change --iterations 1000 --key-file one --new-key-file two drive",
    "revoke --force --slot 1 drive",
    "write --key-file one --in data drive",
];
const READING: [&str; 5] = [
    "test --key-file one drive",
    "read --force --key-file one --out out drive",
    "slots drive",
    "slots --details drive",
    "uuid drive",
];

fn with_data() -> Folder {
    let folder = Folder::with_drive();
    folder.put("data", pattern(512));
    folder
}

#[track_caller]
fn busy(folder: &Folder, lines: &[&str]) {
    let before = folder.get("drive");
    for line in lines {
        folder.line(line).failed(75, "another program is using it; wait");
    }
    assert!(folder.get("drive") == before);
}

#[track_caller]
fn free(folder: &Folder, lines: &[&str]) {
    for line in lines {
        folder.line(line).accepted();
    }
}

#[test]
fn a_lock_of_the_whole_file() {
    let folder = with_data();
    let file = File::open(folder.path("drive")).expect("the drive");
    file.lock().expect("a lock");
    busy(&folder, &WRITING);
    busy(&folder, &READING);
    file.unlock().expect("no lock");
    file.lock_shared().expect("a lock");
    free(&folder, &READING);
    busy(&folder, &WRITING);
}

// A program that holds the drive until it is ended.
struct Holder(Child);

impl Drop for Holder {
    fn drop(&mut self) {
        let _ = self.0.kill();
        let _ = self.0.wait();
    }
}

// qemu with the drive open, at its prompt.
fn qemu(folder: &Folder, options: &[&str]) -> Holder {
    let mut command = Command::new("qemu-io");
    command.args(["-f", "raw"]).args(options).arg("drive").current_dir(folder.path(""));
    let mut child = command.stdin(Stdio::piped()).stdout(Stdio::piped()).spawn().expect("qemu-io runs");
    // It answers when the drive is open.
    child.stdin.as_mut().expect("a pipe").write_all(b"length\n").expect("qemu-io reads");
    let mut answer = String::new();
    BufReader::new(child.stdout.as_mut().expect("a pipe")).read_line(&mut answer).expect("qemu-io answers");
    assert!(!answer.is_empty(), "qemu-io could not open the drive");
    Holder(child)
}

#[test]
fn qemu_that_writes_keeps_us_away() {
    let folder = with_data();
    let holder = qemu(&folder, &[]);
    busy(&folder, &WRITING);
    busy(&folder, &READING);
    drop(holder);
    free(&folder, &READING);
    free(&folder, &WRITING[..1]);
}

#[test]
fn qemu_that_reads_lets_us_read() {
    let folder = with_data();
    let _holder = qemu(&folder, &["-r"]);
    free(&folder, &READING);
    busy(&folder, &WRITING);
}

// The tool with the drive open, waiting for its standard input.
fn ourselves(folder: &Folder, line: &str) -> Holder {
    let mut command = tool();
    command.args(line.split_whitespace()).current_dir(folder.path("")).stdin(Stdio::piped());
    let child = command.spawn().expect("the tool runs");
    let path = std::fs::canonicalize(folder.path("drive")).expect("the drive");
    let files = format!("/proc/{}/fd", child.id());
    let has_it = || {
        let files = std::fs::read_dir(&files).into_iter().flatten().flatten();
        let open = files.into_iter().any(|file| std::fs::read_link(file.path()).is_ok_and(|name| name == path));
        let waits =
            std::fs::read_to_string(format!("/proc/{}/stat", child.id())).is_ok_and(|text| text.contains(") S "));
        open && waits
    };
    let start = Instant::now();
    while !has_it() {
        assert!(start.elapsed() < Duration::from_secs(20), "the tool does not open the drive");
        std::thread::sleep(Duration::from_millis(5));
    }
    Holder(child)
}

fn qemu_does(folder: &Folder, options: &[&str]) -> bool {
    let mut command = Command::new("qemu-io");
    command.args(["-f", "raw"]).args(options).arg("drive").current_dir(folder.path(""));
    let output = command.output().expect("qemu-io runs");
    let said = String::from_utf8_lossy(&output.stdout).into_owned() + &String::from_utf8_lossy(&output.stderr);
    assert!(output.status.success() || said.contains("lock"), "{said}");
    output.status.success()
}

const QEMU_READS: [&str; 3] = ["-r", "-c", "read 0 512"];
const QEMU_WRITES: [&str; 2] = ["-c", "write 40960 512"];

#[test]
fn we_keep_qemu_away() {
    let folder = with_data();
    assert!(qemu_does(&folder, &QEMU_READS));
    let writer = ourselves(&folder, "write --key-file one --in - drive");
    assert!(!qemu_does(&folder, &QEMU_READS) && !qemu_does(&folder, &QEMU_WRITES));
    drop(writer);
    let reader = ourselves(&folder, "test --key-file - drive");
    assert!(qemu_does(&folder, &QEMU_READS), "readers do not disturb each other");
    assert!(!qemu_does(&folder, &QEMU_WRITES));
    busy(&folder, &WRITING);
    free(&folder, &READING);
    drop(reader);
    assert!(qemu_does(&folder, &QEMU_WRITES));
}
