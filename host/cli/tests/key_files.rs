//! Key files of which a part is the passphrase.
mod common;
use common::*;
use std::fs::File;
use std::io::{Read, Seek, SeekFrom, Write};
use std::process::Stdio;

// A folder with a small drive and a file `ring`: 100,000 bytes, the passphrase of `one`, 600 more bytes.
const OFFSET: usize = 100_000;
const SIZE: usize = 14;

fn with_ring() -> Folder {
    let folder = Folder::with_drive();
    let mut ring = pattern(OFFSET);
    ring.extend(b"passphrase one");
    ring.extend(pattern(600));
    folder.put("ring", ring);
    folder
}

fn part() -> String {
    format!("--key-file-offset {OFFSET} --key-file-size {SIZE}")
}

// Runs the tool with bytes that come by a pipe.
fn piped(folder: &Folder, line: &str, bytes: &[u8]) -> Said {
    let mut command = tool();
    command.args(line.split_whitespace()).current_dir(folder.path(""));
    let command = command.stdin(Stdio::piped()).stdout(Stdio::piped()).stderr(Stdio::piped());
    let mut child = command.spawn().expect("the tool runs");
    // The tool may end before it has read everything.
    let _ = child.stdin.take().expect("a pipe").write_all(bytes);
    of_output(child.wait_with_output().expect("the tool ends"))
}

#[test]
fn a_part_of_a_key_file() {
    let folder = with_ring();
    let part = part();
    folder.put("data", pattern(512));
    assert_eq!(folder.line(&format!("test --key-file ring {part} drive")).accepted().out, "key slot 1 opens\n");
    folder.line(&format!("write --key-file ring {part} --in data drive")).accepted();
    folder.line(&format!("read --key-file ring {part} --units 1 --out back drive")).accepted();
    assert_eq!(folder.get("back"), pattern(512));
    folder.put("start", "passphrase one, and more");
    folder.line("test --key-file start --key-file-size 14 drive").accepted();
    folder.put("end", "the passphrase one");
    folder.line("test --key-file end --key-file-offset 4 drive").accepted();
    folder.line("test --key-file end --key-file-offset 4 --key-file-size 13 drive").refused(17, "no key slot opens");
    folder.line("test --key-file end --key-file-offset 3 --key-file-size 14 drive").refused(17, "no key slot opens");
}

#[test]
fn a_part_of_a_new_key_file() {
    let folder = with_ring();
    let (old, new) = (part(), "--new-key-file two --new-key-file-offset 4 --new-key-file-size 6");
    folder.line(&format!("add --iterations 1000 --slot 4 --key-file ring {old} {new} drive")).accepted();
    folder.put("four", "phrase");
    assert_eq!(folder.line("test --key-file four drive").accepted().out, "key slot 4 opens\n");
    let line = format!("change --iterations 1000 --key-file ring {old} --new-key-file ring");
    let part = format!("--new-key-file-offset {} --new-key-file-size 512", OFFSET + SIZE);
    folder.line(&format!("{line} {part} drive")).accepted();
    folder.put("five", pattern(512));
    assert!(folder.opens("five") && !folder.opens("one"));
    let line = format!("format --force --iterations 1000 --stripes {STRIPES} --key-file ring {old} drive");
    folder.line(&line).accepted();
    assert!(folder.opens("one"));
}

#[test]
fn a_part_of_what_comes_by_a_pipe() {
    let folder = with_ring();
    let (ring, part) = (folder.get("ring"), part());
    for name in ["-", "/dev/stdin"] {
        let said = piped(&folder, &format!("test --key-file {name} {part} drive"), &ring);
        assert_eq!(said.accepted().out, "key slot 1 opens\n");
    }
    let line = format!("test --key-file - --key-file-offset {OFFSET} drive");
    piped(&folder, &line, &ring[..OFFSET + SIZE]).accepted();
    piped(&folder, &line, &ring).refused(14, "1 to 512 bytes");
    piped(&folder, &line, &ring[..OFFSET]).refused(14, "1 to 512 bytes");
    piped(&folder, &line, &ring[..OFFSET - 1]).failed(65, "-: it ends before the passphrase does; give a smaller");
    let line = format!("test --key-file - {part} drive");
    piped(&folder, &line, &ring[..OFFSET + SIZE - 1]).failed(65, "-: it ends before the passphrase does");
    piped(&folder, &line, &ring[..10]).failed(65, "-: it ends before the passphrase does");
}

// From where standard input stands, as other commands have left it.
#[test]
fn a_part_of_a_file_as_standard_input() {
    let folder = with_ring();
    let mut file = File::open(folder.path("ring")).expect("a file");
    file.seek(SeekFrom::Start(1000)).expect("a place in the file");
    let line = format!("test --key-file - --key-file-offset {} --key-file-size {SIZE} drive", OFFSET - 1000);
    let mut command = tool();
    command.args(line.split_whitespace()).current_dir(folder.path("")).stdin(file.try_clone().expect("a file"));
    said(&mut command).accepted();
    let mut next = [0];
    file.read_exact(&mut next).expect("a byte");
    assert_eq!(next, pattern(1)[..], "no more was read than the passphrase");
}

#[test]
fn a_part_that_is_not_there() {
    let folder = with_ring();
    let length = OFFSET + SIZE + 600;
    let before = folder.get("drive");
    for part in [
        format!("--key-file-offset {} --key-file-size 14", length - 13),
        format!("--key-file-offset {}", length + 1),
        format!("--key-file-offset {} --key-file-size 0", length + 1),
        format!("--key-file-offset {}", u64::MAX),
        format!("--key-file-offset {} --key-file-size {}", i64::MAX, u64::MAX),
    ] {
        let words = "ring: it ends before the passphrase does; give a smaller offset or size, or check the file";
        folder.line(&format!("test --key-file ring {part} drive")).failed(65, words);
        let part = part.replace("--key", "--new-key");
        folder.line(&format!("add --key-file one --new-key-file ring {part} drive")).failed(65, words);
    }
    folder.line("test --key-file absent --key-file-offset 1 drive").failed(66, "absent: there is no such file");
    assert_eq!(folder.get("drive"), before);
}

#[test]
fn a_part_of_a_wrong_length() {
    let folder = with_ring();
    let length = OFFSET + SIZE + 600;
    for part in [
        "--key-file-size 0".to_owned(),
        "--key-file-size 513".to_owned(),
        format!("--key-file-size {}", u64::MAX),
        format!("--key-file-offset {length}"),
        format!("--key-file-offset {length} --key-file-size 0"),
        format!("--key-file-offset {}", length - 513),
    ] {
        folder.line(&format!("test --key-file ring {part} drive")).refused(14, "1 to 512 bytes");
        let part = part.replace("--key", "--new-key");
        let line = format!("add --iterations 1000 --key-file one --new-key-file ring {part} drive");
        folder.line(&line).refused(14, "1 to 512 bytes");
    }
}

#[test]
fn a_part_of_no_key_file() {
    let folder = with_ring();
    folder.put("data", pattern(512));
    for option in ["--key-file-offset", "--key-file-size"] {
        for line in ["format", "test", "read --out out", "write --in data", "add", "change"] {
            let said = folder.line(&format!("{line} {option} 4 drive"));
            said.failed(64, &format!("{option} is given without --key-file; see 'mivrozh"));
        }
        for line in ["add --key-file one", "change --key-file one"] {
            let option = option.replace("--key", "--new-key");
            let said = folder.line(&format!("{line} {option} 4 drive"));
            said.failed(64, &format!("{option} is given without --new-key-file; see 'mivrozh"));
        }
        folder.line(&format!("test --key-file one {option} -1 drive")).failed(64, "needs a number, not '-1'");
        folder.line(&format!("revoke --slot 1 {option} 1 drive")).failed(64, "no option");
    }
    folder.line("format --new-key-file-size 1 drive").failed(64, "no option --new-key-file-size");
}
