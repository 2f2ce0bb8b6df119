//! Reading and writing large payloads: on all processors, in order, with bounded memory; and where plain bytes may go.
mod common;
#[path = "common/pty.rs"]
mod pty;
use common::*;
use pty::Session;
use std::fs::{self, File, Permissions};
use std::io::{Read, Write};
use std::os::unix::fs::{symlink, PermissionsExt};
use std::process::{Child, Command, Stdio};
use std::time::{Duration, Instant};

const MIB: usize = 1024 * 1024;

// A folder with a drive `long` that has room for so many MiB of payload.
fn with_long(mebibytes: usize) -> Folder {
    let folder = Folder::with_drive();
    let file = File::create(folder.path("long")).expect("a file");
    file.set_len(((mebibytes + 1) * MIB) as u64).expect("a file with a hole");
    folder.line("format --iterations 1000 --stripes 1 --key-file one long").accepted();
    folder
}

#[test]
fn long_transfers_keep_their_order() {
    let folder = with_long(37);
    // No multiple of a chunk, and no two chunks alike.
    let plain = pattern(36 * MIB + 3 * 512);
    folder.put("data", &plain);
    folder.line("write --key-file one --first 5 --in data long").accepted();
    let units = plain.len() / 512;
    folder.line(&format!("read --key-file one --first 5 --units {units} --out back long")).accepted();
    assert!(folder.get("back") == plain);
    folder.line("read --key-file one --first 40000 --units 1 --out one-unit long").accepted();
    assert!(folder.get("one-unit") == plain[39_995 * 512..39_996 * 512]);

    // Through pipes, whose length is not known.
    let line = format!(
        "cat data | {0} write --key-file one --in - long && {0} read --key-file one --units {units} --out - long | cmp - data",
        env!("CARGO_BIN_EXE_mivrozh")
    );
    let shell = Command::new("bash").args(["-c", &line]).current_dir(folder.path("")).output().expect("bash runs");
    assert!(shell.status.success(), "{shell:?}");
    assert_eq!(String::from_utf8_lossy(&shell.stdout), format!("{units} units written\n"));
}

// What a running process has used at most, in KiB.
fn most_memory(child: &Child) -> usize {
    let status = fs::read_to_string(format!("/proc/{}/status", child.id())).expect("the tool's status");
    let line = status.lines().find_map(|line| line.strip_prefix("VmHWM:")).expect("a line");
    line.trim().trim_end_matches(" kB").parse().expect("a number")
}

// Both are looked at when almost all is done and the tool still waits for the test.
#[test]
fn memory_stays_below_64_mebibytes() {
    const LENGTH: usize = 160 * MIB;
    let folder = with_long(160);
    let start = |line: &str| {
        let mut command = tool();
        command.args(line.split_whitespace()).current_dir(folder.path("")).stdin(Stdio::piped()).stdout(Stdio::piped());
        command.spawn().expect("the tool runs")
    };
    let mut piece = vec![0; MIB];
    let mut child = start("write --key-file one --in - long");
    let mut input = child.stdin.take().expect("a pipe");
    (0..LENGTH / MIB).for_each(|_| input.write_all(&piece).expect("the tool reads"));
    let used = most_memory(&child);
    assert!(used > 1024 && used < 64 * 1024, "write: {used} KiB");
    drop(input);
    assert!(child.wait().expect("it ends").success());

    let mut child = start(&format!("read --key-file one --units {} --out - long", LENGTH / 512));
    let mut output = child.stdout.take().expect("a pipe");
    (0..LENGTH / MIB - 1).for_each(|_| output.read_exact(&mut piece).expect("the tool writes"));
    let used = most_memory(&child);
    assert!(used > 1024 && used < 64 * 1024, "read: {used} KiB");
    output.read_exact(&mut piece).expect("the tool writes");
    assert!(child.wait().expect("it ends").success());
}

fn threads(child: &Child) -> usize {
    std::fs::read_dir(format!("/proc/{}/task", child.id())).map_or(0, |tasks| tasks.count())
}

// The reader of the output is slow; meanwhile the other processors have their chunks.
#[test]
fn every_processor_has_a_chunk() {
    let folder = with_long(64);
    let mut command = tool();
    command.args(["read", "--key-file", "one", "--out", "-", "long"]).current_dir(folder.path(""));
    let mut child = command.stdout(Stdio::piped()).spawn().expect("the tool runs");
    let expected = std::thread::available_parallelism().map_or(1, |number| number.get()).min(8);
    let start = Instant::now();
    while threads(&child) < expected {
        assert!(start.elapsed() < Duration::from_secs(20), "{} threads for {expected} processors", threads(&child));
        std::thread::sleep(Duration::from_millis(5));
    }
    let mut length = 0;
    let mut out = child.stdout.take().expect("a pipe");
    let mut buffer = vec![0; MIB];
    while let Ok(count @ 1..) = out.read(&mut buffer) {
        length += count;
    }
    assert!(child.wait().expect("it ends").success());
    assert_eq!(length, 64 * MIB);
}

// A payload that is too short while more data is waited for: the failure is said at once.
#[test]
fn a_failure_does_not_wait_for_data() {
    let folder = with_long(30);
    let mut command = tool();
    command.args(["write", "--key-file", "one", "--in", "-", "long"]).current_dir(folder.path(""));
    let mut child = command.stdin(Stdio::piped()).stderr(Stdio::piped()).spawn().expect("the tool runs");
    let mut pipe = child.stdin.take().expect("a pipe");
    // The first chunk fits, a later one does not, and of the last there is a part only. The tool may end before it reads that.
    let _ = pipe.write_all(&vec![7; 49 * MIB + 512]);
    let start = Instant::now();
    let status = loop {
        if let Some(status) = child.try_wait().expect("the tool's status") {
            break status;
        }
        assert!(start.elapsed() < Duration::from_secs(20), "it waits for more");
        std::thread::sleep(Duration::from_millis(5));
    };
    drop(pipe);
    assert_eq!(status.code(), Some(19));
    let mut said = String::new();
    child.stderr.take().expect("a pipe").read_to_string(&mut said).expect("text");
    assert!(said.contains(" units were written before)"), "{said}");
}

#[test]
fn long_transfers_show_their_progress_at_a_terminal_only() {
    let folder = with_long(40);
    folder.put("data", pattern(34 * MIB));
    let start = |line: &str| Session::start(tool().args(line.split_whitespace()).current_dir(folder.path("")), None);
    let (status, shown) = start("write --key-file one --in data long").end();
    assert_eq!(status, 0, "{shown}");
    assert!(shown.contains(" of 34 MiB written\r") && shown.contains("\r34 of 34 MiB written\r\n"), "{shown:?}");
    let (status, shown) = start(&format!("read --key-file one --units {} --out back long", 34 * 2048)).end();
    assert_eq!(status, 0, "{shown}");
    assert!(shown.contains(" of 34 MiB read\r") && shown.contains("\r34 of 34 MiB read\r\n"), "{shown:?}");
    assert!(folder.get("back") == folder.get("data"));
    folder.line("write --key-file one --in data long").accepted();
}

fn mode(folder: &Folder, name: &str) -> u32 {
    folder.path(name).metadata().expect("a file").permissions().mode() & 0o777
}

#[test]
fn plain_bytes_are_for_their_owner_only() {
    let folder = Folder::with_drive();
    let line = "umask 0; exec \"$0\" read --key-file one --out back drive";
    let mut shell = Command::new("sh");
    shell.args(["-c", line, env!("CARGO_BIN_EXE_mivrozh")]).current_dir(folder.path(""));
    said(&mut shell).accepted();
    assert_eq!(mode(&folder, "back"), 0o600);
    fs::set_permissions(folder.path("back"), Permissions::from_mode(0o644)).expect("a mode");
    folder.line("read --key-file one --force --units 1 --out back drive").accepted();
    assert_eq!((mode(&folder, "back"), folder.get("back").len()), (0o600, 512));
}

// A name that points nowhere is not followed: whoever made it may not choose where the plain bytes go.
#[test]
fn a_link_that_points_nowhere_is_not_followed() {
    let folder = Folder::with_drive();
    symlink("elsewhere", folder.path("link")).expect("a link");
    folder.line("read --key-file one --out link drive").failed(73, "link: it cannot be opened for writing");
    assert!(!folder.path("elsewhere").exists());
}

#[test]
fn plain_bytes_go_to_a_terminal_by_force_only() {
    let folder = Folder::with_drive();
    let start = |line: &str| Session::start(tool().args(line.split_whitespace()).current_dir(folder.path("")), None);
    for target in ["-", "/dev/tty"] {
        let (status, shown) = start(&format!("read --key-file one --units 1 --out {target} drive")).end();
        assert_eq!(status, 73, "{shown}");
        assert!(shown.contains("would go to the terminal; choose a file, use a pipe, or use --force"), "{shown}");
    }
    folder.put("data", [b'a'; 512]);
    folder.line("write --key-file one --in data drive").accepted();
    let (status, shown) = start("read --key-file one --units 1 --force --out - drive").end();
    assert_eq!(status, 0, "{shown}");
    assert!(shown.contains(&"a".repeat(512)), "{shown}");
}
