//! The two screens for the key slots, the UUID, and the first screen before a question.
mod common;
#[path = "common/pty.rs"]
mod pty;
use common::*;
use pty::Session;
use std::fs;

// A drive whose slots 1, 3 and 8 are enabled, with counts that differ.
fn with_three() -> Folder {
    let folder = Folder::with_drive();
    for (slot, count) in [(3, 1003), (8, 20_000)] {
        folder
            .line(&format!("add --slot {slot} --iterations {count} --key-file one --new-key-file two drive"))
            .accepted();
    }
    folder
}

const TABLE: &str = "\
slot  cryptsetup's  state
   1             0  enabled
   2             1  disabled
   3             2  enabled
   4             3  disabled
   5             4  disabled
   6             5  disabled
   7             6  disabled
   8             7  enabled
";

const DETAILS: &str = "\
slot  cryptsetup's  state     iterations  area start  stripes
   1             0  enabled         1000           8       40
   2             1  disabled           0          16       40
   3             2  enabled         1003          24       40
   4             3  disabled           0          32       40
   5             4  disabled           0          40       40
   6             5  disabled           0          48       40
   7             6  disabled           0          56       40
   8             7  enabled        20000          64       40
";

const JSON: &str = r#"{"slots":[
  {"slot":1,"enabled":true},
  {"slot":2,"enabled":false},
  {"slot":3,"enabled":true},
  {"slot":4,"enabled":false},
  {"slot":5,"enabled":false},
  {"slot":6,"enabled":false},
  {"slot":7,"enabled":false},
  {"slot":8,"enabled":true}
]}
"#;

const DETAILS_JSON: &str = r#"{"slots":[
  {"slot":1,"enabled":true,"count":1000,"start":8,"stripes":40},
  {"slot":2,"enabled":false,"count":0,"start":16,"stripes":40},
  {"slot":3,"enabled":true,"count":1003,"start":24,"stripes":40},
  {"slot":4,"enabled":false,"count":0,"start":32,"stripes":40},
  {"slot":5,"enabled":false,"count":0,"start":40,"stripes":40},
  {"slot":6,"enabled":false,"count":0,"start":48,"stripes":40},
  {"slot":7,"enabled":false,"count":0,"start":56,"stripes":40},
  {"slot":8,"enabled":true,"count":20000,"start":64,"stripes":40}
]}
"#;

#[test]
fn tables_and_json() {
    let folder = with_three();
    let before = folder.get("drive");
    for (line, text) in [
        ("slots drive", TABLE),
        ("slots --details drive", DETAILS),
        ("slots --json drive", JSON),
        ("slots --details --json drive", DETAILS_JSON),
        ("slots drive --json --details", DETAILS_JSON),
    ] {
        assert_eq!(folder.line(line).accepted().out, text, "{line}");
    }
    assert!(folder.get("drive") == before);
}

// Overwrites some bytes of the drive.
fn overwrite(folder: &Folder, at: usize, bytes: &[u8]) {
    let mut image = folder.get("drive");
    image[at..at + bytes.len()].copy_from_slice(bytes);
    folder.put("drive", image);
}

fn number_at(slot: usize, field: usize) -> usize {
    208 + 48 * (slot - 1) + field
}

// As a drive of another maker may have them: a count in a disabled slot, and numbers as large as they can be.
#[test]
fn numbers_are_shown_as_the_header_has_them() {
    let folder = with_three();
    overwrite(&folder, number_at(2, 4), &1234u32.to_be_bytes());
    overwrite(&folder, number_at(4, 4), &u32::MAX.to_be_bytes());
    overwrite(&folder, number_at(5, 44), &7u32.to_be_bytes());
    overwrite(&folder, number_at(6, 40), &53u32.to_be_bytes());
    overwrite(&folder, number_at(6, 44), &1u32.to_be_bytes());
    assert_eq!(folder.line("slots drive").accepted().out, TABLE);
    assert_eq!(folder.line("slots --json drive").accepted().out, JSON);
    let table = DETAILS
        .replace("disabled           0          16 ", "disabled        1234          16 ")
        .replace("disabled           0          32 ", "disabled  4294967295          32 ")
        .replace("          40       40\n", "          40        7\n")
        .replace("          48       40\n", "          53        1\n");
    assert_eq!(folder.line("slots --details drive").accepted().out, table);
    let json = DETAILS_JSON
        .replace(r#""count":0,"start":16"#, r#""count":1234,"start":16"#)
        .replace(r#""count":0,"start":32"#, r#""count":4294967295,"start":32"#)
        .replace(r#""start":40,"stripes":40"#, r#""start":40,"stripes":7"#)
        .replace(r#""start":48,"stripes":40"#, r#""start":53,"stripes":1"#);
    assert_eq!(folder.line("slots --details --json drive").accepted().out, json);
}

#[test]
fn the_uuid_is_printed() {
    let folder = Folder::with_drive();
    let uuid = "6a2b1f0e-3c4d-4e5f-8a9b-0c1d2e3f4a5b";
    overwrite(&folder, 168, uuid.as_bytes());
    let before = folder.get("drive");
    assert_eq!(folder.line("uuid drive").accepted().out, format!("{uuid}\n"));
    assert!(folder.get("drive") == before);
    // The one that format says it has made.
    folder.put("new", vec![0; LENGTH]);
    let said = folder.line(&format!("format --iterations 1000 --stripes {STRIPES} --key-file one new")).accepted();
    let printed = folder.line("uuid new").accepted().out;
    assert!(
        printed.len() == 37 && said.out.contains(&format!("UUID {};", printed.trim_end())),
        "{printed}{}",
        said.out
    );
}

// No check looks at a UUID, so it may hold what a terminal would obey.
#[test]
fn a_uuid_reaches_the_terminal_escaped() {
    let folder = Folder::with_drive();
    let mut field = *b"\x1b[2J\x07\r\nx\x7f\x80\xff \xc3\xa4 ~!\\ '\"0000000000000000000";
    assert_eq!(field.len(), 40);
    overwrite(&folder, 168, &field);
    let shown = r#"\x1b[2J\x07\r\nx\x7f\x80\xff \xc3\xa4 ~!\\ \'\"0000000000000000000"#;
    assert_eq!(folder.line("uuid drive").accepted().out, format!("{shown}\n"));
    field[8] = 0;
    overwrite(&folder, 168, &field);
    assert_eq!(folder.line("uuid drive").accepted().out, "\\x1b[2J\\x07\\r\\nx\n");
    overwrite(&folder, 168, &[0]);
    assert_eq!(folder.line("uuid drive").accepted().out, "\n");
}

const LOOKING: [&str; 5] =
    ["slots drive", "slots --details drive", "slots --json drive", "slots --details --json drive", "uuid drive"];

// Each number of the header's check, with the status and nothing on standard output.
#[test]
fn every_refusal_of_the_header() {
    let cases: [(usize, &[u8], i32, &str); 6] = [
        (5, b"\xbf", 2, "this is not a LUKS drive"),
        (7, &[2], 3, "not LUKS version 1"),
        (72, b"md5\0", 4, "hash 'md5' and a key of 512 bits"),
        (number_at(5, 0), &[0, 0, 0xDE, 0xAC], 5, "restore the header from a backup"),
        (number_at(5, 44), &[0; 4], 5, "restore the header from a backup"),
        (number_at(5, 40), &[0, 0, 0, 8], 6, "restore the header from a backup"),
    ];
    for (at, bytes, number, words) in cases {
        let folder = Folder::with_drive();
        overwrite(&folder, at, bytes);
        for line in LOOKING {
            folder.line(line).refused(number, words);
        }
    }
    let folder = Folder::with_drive();
    let whole = folder.get("drive");
    for length in [0, 1, 592, 1023, LENGTH - 1] {
        folder.put("drive", &whole[..length]);
        for line in LOOKING {
            folder.line(line).refused(1, "the image is smaller than 1,024 bytes or not a whole number");
        }
    }
}

#[test]
fn wrong_usage() {
    let folder = Folder::with_drive();
    folder.line("slots").failed(64, "the image is missing; see 'mivrozh slots --help'");
    folder.line("slots drive drive").failed(64, "more than one image was given");
    folder.line("slots --detail drive").failed(64, "there is no option --detail; see 'mivrozh slots --help'");
    folder.line("slots --slot 1 drive").failed(64, "there is no option --slot");
    folder.line("slots --key-file one drive").failed(64, "there is no option --key-file");
    folder.line("slots --details=yes drive").failed(64, "--details takes no value");
    folder.line("slots --json=1 drive").failed(64, "--json takes no value");
    folder.line("slots -j drive").failed(64, "there is no option -j");
    folder.line("uuid").failed(64, "the image is missing; see 'mivrozh uuid --help'");
    folder.line("uuid drive drive").failed(64, "more than one image was given");
    folder.line("uuid --json drive").failed(64, "there is no option --json; see 'mivrozh uuid --help'");
    folder.line("slots absent").failed(66, "absent: there is no such file");
    folder.line("uuid absent").failed(66, "absent: there is no such file");
}

// A screen that nobody gets to see is a failure.
#[test]
fn standard_output_that_cannot_be_written() {
    let folder = Folder::with_drive();
    for line in LOOKING {
        let full = fs::OpenOptions::new().write(true).open("/dev/full").expect("/dev/full");
        let mut command = tool();
        command.args(line.split_whitespace()).current_dir(folder.path("")).stdout(full);
        said(&mut command).failed(74, "standard output: the disk is full");
    }
}

// As a user who may read the file and not write it.
#[test]
fn an_image_that_may_only_be_read() {
    let folder = with_three();
    folder.mode("drive", 0o444);
    let run = |line: &str| folder.line_by_mode(line);
    assert_eq!(run("slots drive").accepted().out, TABLE);
    assert_eq!(run("slots --details drive").accepted().out, DETAILS);
    assert_eq!(run("uuid drive").accepted().out.len(), 37);
    run("revoke --force --slot 3 drive").failed(73, "it cannot be opened for writing");
    folder.mode("drive", 0o200);
    LOOKING.iter().for_each(|line| _ = run(line).failed(66, "permission denied"));
}

fn start(folder: &Folder, line: &str) -> Session {
    Session::start(tool().args(line.split_whitespace()).current_dir(folder.path("")), None)
}

// The screen as a terminal shows it.
fn on_terminal() -> String {
    TABLE.replace('\n', "\r\n")
}

#[test]
fn revoke_shows_the_slots_before_it_asks() {
    let folder = with_three();
    let before = folder.get("drive");
    let question = "Key slot 3 (cryptsetup's 2) of drive will be revoked; 2 other key slots stay in use. See first that one of \
                    them opens ('mivrozh test --slot N'): one whose revocation was cut short opens nothing. Type yes to go on: ";
    let mut session = start(&folder, "revoke --slot 3 drive");
    assert_eq!(session.wait_for("Type yes to go on: "), format!("{}{question}", on_terminal()));
    session.keys("no\n");
    assert_eq!(session.end().0, 65);
    assert!(folder.get("drive") == before);

    let mut session = start(&folder, "revoke --slot 3 drive");
    session.answer("Type yes to go on: ", "yes\n");
    assert_eq!(session.end().0, 0);
    let after = TABLE.replace("2  enabled", "2  disabled");
    assert_eq!(folder.line("slots drive").accepted().out, after);
}

// Once, before the first question, and not again where a passphrase is mistyped.
#[test]
fn change_shows_the_slots_before_it_asks() {
    let folder = with_three();
    let mut session = start(&folder, "change --iterations 1000 --slot 3 drive");
    assert_eq!(session.wait_for("Old passphrase: "), format!("{}Old passphrase: ", on_terminal()));
    session.keys("mistyped\n");
    session.answer("Old passphrase: ", "passphrase two\n");
    session.answer("New passphrase, for key slot 2: ", "a new one\n");
    session.answer("The same again: ", "a new one\n");
    let (status, shown) = session.end();
    assert_eq!((status, shown.matches("cryptsetup's  state").count()), (0, 1), "{shown}");
    let after = TABLE.replace("1  disabled", "1  enabled").replace("2  enabled", "2  disabled");
    assert_eq!(folder.line("slots drive").accepted().out, after);

    // Where the old passphrase is in a file, the new one is the first question.
    let mut session = start(&folder, "change --iterations 1000 --slot 8 --key-file two drive");
    let question = "New passphrase, for key slot 3: ";
    assert_eq!(session.wait_for(question), format!("{}{question}", after.replace('\n', "\r\n")));
    session.keys("\u{4}");
    assert_eq!(session.end().0, 65);
    // Only the old one is asked for.
    let mut session = start(&folder, "change --iterations 1000 --slot 8 --new-key-file three drive");
    assert!(session.wait_for("Old passphrase: ").starts_with("slot  cryptsetup's  state\r\n"));
    session.keys("\u{4}");
    assert_eq!(session.end().0, 65);
}

// Neither at the terminal nor on standard output.
#[test]
fn no_screen_where_nothing_is_asked() {
    let folder = with_three();
    for (line, status) in [
        ("revoke --slot 2 drive", 15),
        ("revoke --slot 9 drive", 13),
        ("revoke --force --slot 3 drive", 0),
        ("change --iterations 1000 --slot 1 --key-file one --new-key-file three drive", 0),
        ("change --slot 8 --key-file three drive", 17),
        ("change --to 8 drive", 15),
    ] {
        let (ended, shown) = start(&folder, line).end();
        assert_eq!(ended, status, "{line}: {shown}");
        assert!(!shown.contains("state") && !shown.contains("abled"), "{line}: {shown}");
    }
}

#[test]
fn add_takes_the_first_slot_that_the_screen_calls_disabled() {
    let folder = with_three();
    for slot in [2, 4, 5, 6, 7] {
        let screen = folder.line("slots drive").accepted().out;
        let first = screen.lines().find(|line| line.ends_with("disabled")).expect("a slot that is free");
        assert!(first.starts_with(&format!("   {slot} ")), "{screen}");
        let said = folder.line("add --iterations 1000 --key-file one --new-key-file two drive").accepted();
        assert_eq!(said.out, format!("key slot {slot} (cryptsetup's {}) holds the new passphrase\n", slot - 1));
    }
    assert!(!folder.line("slots drive").accepted().out.contains("disabled"));
    folder.line("add --key-file one --new-key-file two drive").refused(15, "every key slot is in use");
}

// Service people see what its slots were.
#[test]
fn a_drive_whose_areas_cannot_be_read_still_shows_its_slots() {
    let folder = with_three();
    let library = preloaded("unreadable.c");
    let run = |line: &str, readable: &str| {
        let mut command = tool();
        command.args(line.split_whitespace()).current_dir(folder.path(""));
        said(command.env("LD_PRELOAD", &library).env("READABLE", readable))
    };
    assert_eq!(run("slots drive", "4096").accepted().out, TABLE);
    assert_eq!(run("slots --details drive", "4096").accepted().out, DETAILS);
    assert_eq!(run("uuid drive", "4096").accepted().out.len(), 37);
    run("test --key-file one drive", "4096").failed(74, "it cannot be read");
    for line in LOOKING {
        let said = run(line, "4095").failed(74, "it cannot be read");
        assert_eq!(said.out, "", "{line}");
    }
}
