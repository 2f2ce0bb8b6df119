//! Drives that were formatted before payloads began on a mebibyte: every command works on them as before, and no command
//! moves their payload.
mod common;
use common::*;
use std::path::Path;

const START: usize = 65;
const UNITS: usize = 8;
// An area has 15 stripes of 32 bytes, so one sector.
const SLOT_5: usize = 40;
const SLOT_6: usize = 48;

// A folder with a copy of the stored drive, and key files for its slots 1 and 8 and for new passphrases.
fn with_old_drive() -> Folder {
    let folder = Folder::new();
    let stored = Path::new(env!("CARGO_MANIFEST_DIR")).join("../../crates/drives/data/luks1-start-65.img");
    folder.put("drive", std::fs::read(stored).expect("the stored drive"));
    folder.put("first", "first passphrase");
    folder.put("eighth", "8");
    folder.put("two", "passphrase two");
    folder.put("three", "passphrase three");
    folder
}

// The stored plaintext: byte i is 7 i modulo 251.
fn plain() -> Vec<u8> {
    (0..UNITS * 512).map(|i| (7 * i % 251) as u8).collect()
}

fn start_of(image: &[u8]) -> usize {
    u32::from_be_bytes(image[104..108].try_into().expect("four bytes")) as usize
}

#[test]
fn it_opens_and_shows_its_slots() {
    let folder = with_old_drive();
    let before = folder.get("drive");
    assert_eq!((start_of(&before), before.len()), (START, (START + UNITS) * 512));
    assert_eq!(folder.line("test --key-file first drive").accepted().out, "key slot 1 opens\n");
    assert_eq!(folder.line("test --slot 8 --key-file eighth drive").accepted().out, "key slot 8 opens\n");
    folder.line("test --key-file two drive").refused(17, "no key slot opens");
    let shown = folder.line("slots --json drive").accepted().out;
    let enabled: Vec<bool> = shown.lines().filter(|l| l.contains("\"slot\"")).map(|l| l.contains("true")).collect();
    assert_eq!(enabled, [true, true, false, true, false, false, false, true], "{shown}");
    let details = folder.line("slots --details drive").accepted().out;
    assert!(
        details.lines().any(|line| line.split_whitespace().eq(["8", "7", "enabled", "1000", "64", "15"])),
        "{details}"
    );
    assert_eq!(folder.line("uuid drive").accepted().out, "6d69767a-6f68-4256-8000-000000000065\n");
    assert!(folder.get("drive") == before);
}

#[test]
fn its_slots_are_changed_where_they_are() {
    let folder = with_old_drive();
    let before = folder.get("drive");
    folder.line("add --slot 5 --iterations 1000 --key-file first --new-key-file two drive").accepted();
    assert_eq!(changed_sectors(&before, &folder.get("drive")), [0, SLOT_5]);
    folder.line("change --slot 5 --to 6 --iterations 1000 --key-file two --new-key-file three drive").accepted();
    assert!(folder.opens("three") && folder.opens("first") && !folder.opens("two"));
    assert_eq!(changed_sectors(&before, &folder.get("drive")), [0, SLOT_5, SLOT_6]);
    folder.line("revoke --force --slot 8 drive").accepted();
    assert!(!folder.opens("eighth") && folder.opens("three"));
    let after = folder.get("drive");
    assert_eq!(changed_sectors(&before, &after), [0, 1, SLOT_5, SLOT_6, 64]);
    assert_eq!(start_of(&after), START);
    folder.line("read --key-file three --out back drive").accepted();
    assert!(folder.get("back") == plain());
}

#[test]
fn its_payload_is_read_and_written_where_it_is() {
    let folder = with_old_drive();
    let before = folder.get("drive");
    folder.line("read --key-file first --out back drive").accepted();
    assert!(folder.get("back") == plain());
    folder.put("data", pattern(2 * 512));
    folder.line("write --key-file eighth --first 3 --in data drive").accepted();
    assert_eq!(changed_sectors(&before, &folder.get("drive")), [START + 3, START + 4]);
    folder.line("read --key-file first --force --out back drive").accepted();
    let mut expected = plain();
    expected[3 * 512..5 * 512].copy_from_slice(&pattern(2 * 512));
    assert!(folder.get("back") == expected);
    folder.line("read --key-file first --first 8 --units 1 --out more drive").refused(19, "which has 8;");
}

// Format alone gives a drive the new start, and needs a file that is long enough for it.
#[test]
fn format_makes_a_new_drive_of_it() {
    let folder = with_old_drive();
    let line = "format --force --key-size 256 --stripes 15 --iterations 1000 --key-file two drive";
    let before = folder.get("drive");
    folder.line(line).refused(12, "drive has 37376 bytes, and");
    assert!(folder.get("drive") == before);
    folder.put("drive", [before, vec![7; (PAYLOAD_START - START) * 512]].concat());
    folder.line(line).accepted();
    let after = folder.get("drive");
    assert_eq!(start_of(&after), PAYLOAD_START);
    assert!(after[9 * 512..PAYLOAD_START * 512].iter().all(|&byte| byte == 0), "up to the payload all is zeroed");
    assert!(after[PAYLOAD_START * 512..] == [7; UNITS * 512], "the payload keeps its bytes");
    assert!(folder.opens("two") && !folder.opens("first"));
}
