//! Every failure: its status, a message that says what to do, and nothing lost.
mod common;
use common::*;
use std::fs::{self, File};
use std::process::Command;

// The drive after this line is the one before it.
#[track_caller]
fn unchanged(folder: &Folder, line: &str) -> Said {
    let before = folder.get("drive");
    let said = folder.line(line);
    assert!(folder.get("drive") == before, "{line}: the drive was changed");
    said
}

// The small drive with some bytes of its header overwritten.
fn with_header(at: usize, bytes: &[u8]) -> Folder {
    let folder = Folder::with_drive();
    let mut image = folder.get("drive");
    image[at..at + bytes.len()].copy_from_slice(bytes);
    folder.put("drive", image);
    folder
}

// What each command that needs a drive is given here.
const COMMANDS: [&str; 8] = [
    "add --iterations 1000 --key-file one --new-key-file two drive",
    "change --iterations 1000 --key-file one --new-key-file two drive",
    "revoke --force --slot 1 drive",
    "slots --details drive",
    "uuid drive",
    "test --key-file one drive",
    "read --key-file one --out out drive",
    "write --key-file one --in two drive",
];
// Those that change nothing.
const READING: [&str; 4] = ["slots", "uuid", "test", "read"];

#[test]
fn wrong_usage() {
    let folder = Folder::with_drive();
    unchanged(&folder, "").failed(64, "a command is missing");
    unchanged(&folder, "luksFormat drive").failed(64, "no command 'luksFormat'; 'mivrozh --help'");
    unchanged(&folder, "test --passphrase secret drive")
        .failed(64, "no option --passphrase; see 'mivrozh test --help'");
    unchanged(&folder, "test -k one drive").failed(64, "no option -k");
    unchanged(&folder, "revoke --key-file one --slot 1 drive").failed(64, "no option --key-file");
    unchanged(&folder, "test --key-file").failed(64, "--key-file needs a value");
    unchanged(&folder, "test --key-file one").failed(64, "the image is missing");
    unchanged(&folder, "test --key-file one drive secret").failed(64, "a passphrase is never an argument");
    unchanged(&folder, "test --key-file one --key-file two drive").failed(64, "--key-file was given twice");
    unchanged(&folder, "test --slot first --key-file one drive").failed(64, "--slot needs a number, not 'first'");
    unchanged(&folder, "test --slot -1 --key-file one drive").failed(64, "--slot needs a number, not '-1'");
    unchanged(&folder, "format --key-size 128 --key-file one drive").failed(64, "--key-size is 256 or 512");
    for name in ["sha512", "SHA256", "sha-256", "md5"] {
        let words = format!("--hash is sha1 or sha256, not '{name}'; see 'mivrozh format --help'");
        unchanged(&folder, &format!("format --force --hash {name} --key-file one drive")).failed(64, &words);
    }
    unchanged(&folder, "format --force --hash= --key-file one drive").failed(64, "--hash is sha1 or sha256, not ''");
    unchanged(&folder, "format --force --key-file one drive --hash").failed(64, "--hash needs a value");
    unchanged(&folder, "format --force=yes --key-file one drive").failed(64, "--force takes no value");
    unchanged(&folder, "revoke drive").failed(64, "--slot is missing");
    unchanged(&folder, "read --key-file one drive").failed(64, "--out is missing");
    unchanged(&folder, "write --key-file one drive").failed(64, "--in is missing");
    unchanged(&folder, "write --key-file - --in - drive").failed(64, "standard input can be read once");
    unchanged(&folder, "add --key-file - --new-key-file - drive").failed(64, "standard input can be read once");
}

// The status tells where standard error cannot.
#[test]
fn standard_error_that_cannot_be_written() {
    let folder = Folder::with_drive();
    let full = || fs::OpenOptions::new().write(true).open("/dev/full").expect("/dev/full");
    for (line, status) in [("test --key-file two drive", 17), ("luksFormat", 64), ("test --key-file one drive", 0)] {
        let mut command = tool();
        command.args(line.split_whitespace()).current_dir(folder.path("")).stderr(full());
        assert_eq!(command.status().expect("the tool runs").code(), Some(status), "{line}");
    }
}

// What a name would do to a terminal is not done.
#[test]
fn names_in_messages_are_escaped() {
    let folder = Folder::new();
    folder.run(["test", "--key-file", "one", "\u{1b}[2Jdrive\n"]).failed(66, "\\u{1b}[2Jdrive\\n: there is no such");
    folder.run(["\u{7}bell"]).failed(64, "there is no command '\\u{7}bell'");
    folder.run(["test", "--\u{1b}c", "drive"]).failed(64, "there is no option --\\u{1b}c");
}

#[test]
fn revoke_without_a_terminal_needs_force() {
    let folder = Folder::with_drive();
    folder.line("add --iterations 1000 --key-file one --new-key-file two drive").accepted();
    unchanged(&folder, "revoke --slot 2 drive").failed(64, "no terminal to ask at; use --force to revoke");
    // What the engine refuses is not asked about.
    unchanged(&folder, "revoke --slot 3 drive")
        .refused(15, "key slot 3 (cryptsetup's 2) is not in use; these are: 1, 2");
    folder.line("revoke --force --slot 2 drive").accepted();
    unchanged(&folder, "revoke --slot 1 drive").refused(18, "add another passphrase before you revoke it");
}

#[test]
fn no_terminal_to_ask_at() {
    let folder = Folder::with_drive();
    folder.put("data", [7; 512]);
    for line in ["test drive", "add drive", "change drive", "read --out out drive", "write --in data drive"] {
        folder.line(line).failed(64, "no terminal to ask at; use --key-file");
    }
}

#[test]
fn a_missing_file() {
    let folder = Folder::with_drive();
    for line in COMMANDS {
        let line = line.replace(" drive", " absent");
        folder.line(&line).failed(66, "absent: there is no such file");
        assert!(!folder.path("absent").exists());
    }
    folder.line("format --key-file one absent").failed(66, "absent: there is no such file");
    assert!(!folder.path("absent").exists());
    unchanged(&folder, "test --key-file absent drive").failed(66, "absent: there is no such file");
    unchanged(&folder, "add --key-file one --new-key-file absent drive").failed(66, "absent: there is no such file");
    unchanged(&folder, "write --key-file one --in absent drive").failed(66, "absent: there is no such file");
    unchanged(&folder, "read --key-file one --out absent/out drive")
        .failed(73, "absent/out: it cannot be opened for writing");
    fs::create_dir(folder.path("directory")).expect("a folder");
    folder.line("test --key-file one directory").failed(66, "neither a file nor a block device");
    folder.line("revoke --slot 1 directory").failed(66, "neither a file nor a block device");
    folder.line("test --key-file one /dev/null").failed(66, "neither a file nor a block device");
}

// As a user who may read the file and not write it.
#[test]
fn a_read_only_file() {
    let folder = Folder::with_drive();
    folder.put("two", pattern(512));
    folder.mode("drive", 0o444);
    let before = folder.get("drive");
    let run = |line: &str| folder.line_by_mode(line);
    run("test --key-file one drive").accepted();
    assert_eq!(run("read --key-file one --out - drive").status, 0);
    let writing = COMMANDS.iter().filter(|line| !READING.iter().any(|name| line.starts_with(name)));
    assert_eq!(writing.clone().count(), COMMANDS.len() - READING.len());
    for line in writing.chain(&["format --force --key-file one drive"]) {
        run(line).failed(73, "drive: it cannot be opened for writing: permission denied; check");
    }
    assert_eq!(folder.get("drive"), before);
    folder.mode("drive", 0o200);
    run("test --key-file one drive").failed(66, "permission denied");
}

#[test]
fn a_short_file() {
    let folder = Folder::with_drive();
    let whole = folder.get("drive");
    for length in [0, 1, 512, 1023, LENGTH - 1] {
        folder.put("drive", &whole[..length]);
        for line in COMMANDS {
            unchanged(&folder, line).refused(1, "the image is smaller than 1,024 bytes or not a whole number");
        }
    }
    folder.put("drive", &whole[..(PAYLOAD_START - 1) * 512]);
    for line in COMMANDS {
        unchanged(&folder, line).refused(6, "give the whole image, or restore the header from a backup");
    }
}

// It is said how long a file is and how long it must be: 1 MiB or 2 MiB and the payload, by key size and stripes.
#[test]
fn a_file_too_short_for_a_new_drive() {
    let folder = Folder::with_drive();
    let short = |options: &str, length: usize, needs: &str| {
        folder.put("drive", vec![0; length]);
        let said = unchanged(&folder, &format!("format {options} --key-file one drive"));
        let words = format!(
            "drive has {length} bytes, and with this key size and these stripes a drive needs {needs} and its payload; make it \
             longer, or use a larger one"
        );
        said.refused(if length < 1024 || !length.is_multiple_of(512) { 1 } else { 12 }, &words);
    };
    let (one, two) = ("1 MiB (1048576 bytes)", "2 MiB (2097152 bytes)");
    for length in [0, 1023, 1024, 65 * 512, 1_000_000, 2047 * 512, 2048 * 512 - 1] {
        short("--stripes 1", length, one);
        short("--key-size 256 --stripes 3967", length, one);
        short("--hash sha256 --stripes 1983", length, one);
    }
    for length in [0, 1024, 2048 * 512, 2_000_000, 4095 * 512, 4096 * 512 - 1] {
        short("", length, two);
        short("--hash sha256 --key-size 256", length, two);
        short("--key-size 256 --stripes 3968", length, two);
        short("--stripes 1984", length, two);
    }
}

// A file that is long enough, but has no whole number of sectors; and one of which nobody can say how long it must be.
#[test]
fn a_file_of_no_whole_sectors_for_a_new_drive() {
    let folder = Folder::with_drive();
    for (options, length) in [("--stripes 1", 2048 * 512 + 1), ("", 4097 * 512 - 1), ("--stripes 4001", 1023)] {
        folder.put("drive", vec![0; length]);
        let said = unchanged(&folder, &format!("format {options} --key-file one drive"));
        said.refused(1, "the image is smaller than 1,024 bytes or not a whole number of");
    }
}

#[test]
fn no_drive_or_a_foreign_or_damaged_one() {
    let cases: [(usize, &[u8], i32, &str); 7] = [
        (0, b"\x7fELF", 2, "this is not a LUKS drive"),
        (6, &[0, 2], 3, "not LUKS version 1"),
        (
            40,
            b"cbc-essiv:sha256\0",
            4,
            "cipher 'aes', mode 'cbc-essiv:sha256', hash 'sha1' and a key of 512 bits; this",
        ),
        (
            72,
            b"sha512\0",
            4,
            "hash 'sha512' and a key of 512 bits; this tool knows aes, xts-plain64 and sha1 or sha256 with 256 or 512 bits",
        ),
        (8, b"\x1b[2J\0", 4, "cipher '\\u{1b}[2J', mode 'xts-plain64'"),
        (208, &[1, 2, 3, 4], 5, "restore the header from a backup"),
        (248, &[0, 0, 0, 1], 6, "restore the header from a backup"),
    ];
    for (at, bytes, number, words) in cases {
        let folder = with_header(at, bytes);
        for line in COMMANDS {
            unchanged(&folder, line).refused(number, words);
        }
    }
    let folder = Folder::with_drive();
    folder.put("drive", vec![0; LENGTH]);
    unchanged(&folder, "test --key-file one drive").refused(2, "check that it is the right file");
}

// Numbers in a damaged header that no memory would be large enough for.
#[test]
fn a_header_with_wild_numbers() {
    for (at, number) in [(104, 6), (108, 4), (248, 6), (252, 5)] {
        let folder = with_header(at, &[0xFF; 4]);
        for line in COMMANDS {
            unchanged(&folder, line).refused(number, "");
        }
    }
}

#[test]
fn arguments_that_the_engine_refuses() {
    let folder = Folder::with_drive();
    folder.put("empty", "");
    folder.put("longest", pattern(512));
    folder.put("too-long", pattern(513));
    let format = |options: &str| unchanged(&folder, &format!("format --force --key-file one {options} drive"));
    format("--stripes 0").refused(8, "must be 1 to 4,000");
    format("--stripes 4001").refused(8, "must be 1 to 4,000");
    format("--stripes 4294967296").failed(64, "--stripes is at most 4294967295");
    format("--stripes 40 --iterations 4294967296").failed(64, "--iterations is at most 4294967295");
    format("--stripes 40 --iterations 999").refused(10, "use 1,000 or more");
    format("--stripes 40 --uuid none").refused(11, "36 printable characters");
    format("").refused(12, "2 MiB (2097152 bytes) and its payload; make it longer");
    let drive = |line: &str| unchanged(&folder, &format!("{line} --key-file one drive"));
    for slot in ["0", "9", "256", "257"] {
        drive(&format!("test --slot {slot}")).refused(13, "use a number from 1 to 8");
        drive(&format!("add --slot {slot} --new-key-file two")).refused(13, "use a number from 1 to 8");
        drive(&format!("change --to {slot} --new-key-file two")).refused(13, "use a number from 1 to 8");
        drive(&format!("change --slot {slot} --new-key-file two")).refused(13, "use a number from 1 to 8");
        unchanged(&folder, &format!("revoke --slot {slot} drive")).refused(13, "use a number from 1 to 8");
    }
    unchanged(&folder, "revoke --slot 0 drive").refused(13, "cryptsetup counts from 0: its slot 0 is slot 1 here");
    for name in ["empty", "too-long"] {
        unchanged(&folder, &format!("test --key-file {name} drive")).refused(14, "1 to 512 bytes");
        drive(&format!("add --new-key-file {name}")).refused(14, "key slot 2: a passphrase must have 1 to 512 bytes");
        drive(&format!("change --new-key-file {name}"))
            .refused(14, "key slot 2: a passphrase must have 1 to 512 bytes");
        unchanged(&folder, &format!("format --force --iterations 1000 --stripes 40 --key-file {name} drive"))
            .refused(14, "1 to 512 bytes");
    }
    let taken = "key slot 1 (cryptsetup's 0) is in use; choose a free one, such as 2 (cryptsetup's 1)";
    drive("add --slot 1 --new-key-file two").refused(15, taken);
    drive("change --to 1 --new-key-file two").refused(15, taken);
    drive("test --slot 2").refused(15, "key slot 2 (cryptsetup's 1) is not in use; these are: 1");
    unchanged(&folder, "revoke --slot 3 drive").refused(15, "key slot 3 (cryptsetup's 2) is not in use; these are: 1");
    drive("add --iterations 10 --new-key-file two").refused(10, "key slot 2: the iteration count is too small");
    drive("change --iterations 10 --new-key-file two").refused(10, "key slot 2: the iteration count is too small");
    unchanged(&folder, "revoke --force --slot 1 drive").refused(18, "add another passphrase before you revoke it");
    folder.line("add --iterations 1000 --key-file one --new-key-file longest drive").accepted();
    assert!(folder.opens("longest"));
}

// A slot that is in use may be so since a command was cut short. Whoever gives one slot for both has seen no such change.
#[test]
fn slots_that_are_in_use_after_a_cut() {
    let folder = Folder::with_drive();
    let words = |line: &str, words: &str| unchanged(&folder, line).refused(15, words).err;
    words("add --slot 1 drive", "If an addition to it was cut short, it is done: 'mivrozh test --slot 1' tries it.");
    words(
        "change --to 1 drive",
        "opens with the new passphrase, revoking the old slot, if it is still in use, ends that.",
    );
    words("change --slot 2 --to 1 drive", "If a change of key slot 2 to it was cut short, that is done.");
    words("revoke --slot 2 drive", "If its revocation was cut short, it is done.");
    for line in ["change --slot 1 --to 1 drive", "change --slot 9 --to 1 drive"] {
        assert!(!words(line, "key slot 1 (cryptsetup's 0) is in use").contains("cut short"));
    }
}

#[test]
fn a_wrong_passphrase() {
    let folder = Folder::with_drive();
    folder.put("data", pattern(512));
    for line in [
        "test --key-file two drive",
        "add --key-file two --new-key-file three drive",
        "change --key-file two --new-key-file three drive",
        "read --key-file two --out out drive",
        "write --key-file two --in data drive",
    ] {
        unchanged(&folder, line).refused(17, "no key slot opens with this passphrase");
    }
    unchanged(&folder, "test --slot 1 --key-file two drive")
        .refused(17, "key slot 1 does not open with this passphrase");
    // No change was cut short where only one slot is in use.
    let line = "change --slot 1 --key-file two --new-key-file three drive";
    assert!(!unchanged(&folder, line).refused(17, "does not open").err.contains("cut short"));
    folder.line("add --iterations 1000 --key-file one --new-key-file three drive").accepted();
    unchanged(&folder, line)
        .refused(17, "does not open with this passphrase; check both. If a change was cut short and");
    assert!(!folder.path("out").exists());
}

#[test]
fn units_outside_the_payload() {
    let folder = Folder::with_drive();
    folder.put("data", pattern(1024));
    let last = PAYLOAD_UNITS - 1;
    let words = "outside the payload, which has 16;";
    for range in [format!("--first {last} --units 2"), "--first 17".into(), format!("--units {}", u64::MAX)] {
        unchanged(&folder, &format!("read --key-file one {range} --out out drive")).refused(19, words);
        assert!(!folder.path("out").exists());
    }
    unchanged(&folder, &format!("write --key-file one --first {last} --in data drive")).refused(19, words);
    unchanged(&folder, &format!("write --key-file one --first {} --in data drive", u64::MAX)).refused(19, words);
    folder.line(&format!("write --key-file one --first {} --in data drive", last - 1)).accepted();
}

#[test]
fn data_that_is_no_whole_number_of_units() {
    let folder = Folder::with_drive();
    folder.put("data", pattern(1000));
    unchanged(&folder, "write --key-file one --in data drive").failed(65, "no multiple of 512 bytes; add zeros");
    let before = folder.get("drive");
    let data = File::open(folder.path("data")).expect("a file");
    let arguments = ["write", "--key-file", "one", "--in", "-", "drive"];
    said(tool().args(arguments).current_dir(folder.path("")).stdin(data)).failed(65, "no multiple of 512 bytes");
    assert_eq!(folder.get("drive"), before);
}

#[test]
fn the_image_as_its_own_data() {
    let folder = Folder::with_drive();
    unchanged(&folder, "write --key-file one --in drive drive").failed(65, "the input is the image itself");
    unchanged(&folder, "read --key-file one --force --out drive drive").failed(73, "the output is the image itself");
    std::os::unix::fs::symlink("drive", folder.path("link")).expect("a link");
    unchanged(&folder, "read --key-file one --force --out link drive").failed(73, "the output is the image itself");
}

#[test]
fn an_output_that_is_there() {
    let folder = Folder::with_drive();
    folder.put("out", "precious");
    unchanged(&folder, "read --key-file one --out out drive").failed(73, "out: it is there already; choose another");
    assert_eq!(folder.get("out"), b"precious");
    folder.line("read --key-file one --force --out out drive").accepted();
    assert_eq!(folder.get("out").len(), PAYLOAD_UNITS * 512);
}

#[test]
fn a_full_disk_for_the_output() {
    let folder = Folder::with_drive();
    unchanged(&folder, "read --key-file one --out /dev/full drive")
        .failed(74, "incomplete: the disk is full; make room");
    let full = fs::OpenOptions::new().write(true).open("/dev/full").expect("/dev/full");
    let arguments = ["read", "--key-file", "one", "--out", "-", "drive"];
    let output = tool().args(arguments).current_dir(folder.path("")).stdout(full).output().expect("the tool runs");
    of_output(output).failed(74, "incomplete: the disk is full; make room");
}

// Who may not mount has no small disk to fill; the cuts' tests fill one in any case.
#[test]
fn a_full_disk_for_the_image() {
    let folder = Folder::with_drive();
    let disk = folder.path("disk");
    fs::create_dir(&disk).expect("a folder");
    let mount = Command::new("mount").args(["-t", "tmpfs", "-o", "size=64k", "none"]).arg(&disk).output();
    if !mount.as_ref().is_ok_and(|output| output.status.success()) {
        return missing(&format!("no small disk can be mounted here: {mount:?}"));
    }
    let tried = std::panic::catch_unwind(|| {
        let sparse = File::create(disk.join("drive")).expect("a file");
        sparse.set_len(4100 * 512).expect("a file with a hole");
        let said = folder.line("format --iterations 1000 --stripes 4000 --key-file one disk/drive");
        said.failed(74, "the disk is full");
        folder.line("test --key-file one disk/drive").refused(2, "this is not a LUKS drive");
    });
    // Lazily: a process that another test is just starting may hold the file for a moment.
    assert!(Command::new("umount").arg("-l").arg(&disk).status().expect("umount runs").success());
    tried.expect("the failure is reported, and no header is there");
}
