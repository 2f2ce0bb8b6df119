//! Every command as a user uses it, with key files.
mod common;
use common::*;
use std::io::Write;
use std::os::unix::fs::PermissionsExt;
use std::process::Stdio;
use std::time::{Duration, Instant};

const STATE: usize = 208;

// Whether the header says that the slot is enabled.
fn enabled(image: &[u8], slot: usize) -> bool {
    image[STATE + 48 * (slot - 1)..][..4] == [0x00, 0xAC, 0x71, 0xF3]
}

#[test]
fn the_life_of_a_drive() {
    let folder = Folder::with_drive();
    assert_eq!(folder.line("test --key-file one drive").accepted().out, "key slot 1 opens\n");
    folder.line("add --iterations 1000 --key-file one --new-key-file two --slot 7 drive").accepted();
    let said = folder.line("test --key-file two drive").accepted();
    assert_eq!(said.out, "key slot 7 opens\n");

    folder.put("plain", pattern(PAYLOAD_UNITS * 512));
    folder.line("write --key-file two --in plain drive").accepted();
    folder.line("change --iterations 1000 --key-file one --new-key-file three drive").accepted();
    assert!(!folder.opens("one") && folder.opens("two"));
    assert_eq!(folder.line("test --key-file three drive").accepted().out, "key slot 2 opens\n");
    folder.line("revoke --force --slot 7 drive").accepted();
    assert!(!folder.opens("two"));

    folder.line("read --key-file three --out back drive").accepted();
    assert_eq!(folder.get("back"), folder.get("plain"));
    assert_ne!(folder.get("drive")[PAYLOAD_START * 512..], folder.get("plain"));
}

#[test]
fn format_has_a_first_passphrase_and_keeps_the_payload() {
    let folder = Folder::with_drive();
    let image = folder.get("drive");
    assert_eq!(image[PAYLOAD_START * 512..], pattern(LENGTH)[PAYLOAD_START * 512..]);
    assert!(enabled(&image, 1) && (2..=8).all(|slot| !enabled(&image, slot)));
    assert_eq!(image[108..112], 64u32.to_be_bytes());
}

// A payload may be empty: a file that ends where it starts is a drive, and one to which data can be written once it is longer.
#[test]
fn format_says_how_long_the_payload_is() {
    let folder = Folder::with_drive();
    let format = |sectors: usize| {
        folder.put("new", vec![0; sectors * 512]);
        let said = folder.line("format --iterations 1000 --stripes 1 --key-file one new").accepted();
        assert_eq!(said.out.lines().count(), 2, "{}", said.out);
        said.out.lines().last().unwrap_or_default().to_owned()
    };
    assert_eq!(format(PAYLOAD_START + 16), "the payload has 16 units of 512 bytes");
    assert_eq!(format(PAYLOAD_START + 1), "the payload has 1 unit of 512 bytes");
    let empty = "the payload is empty; a longer file or a larger device has room for data";
    assert_eq!(format(PAYLOAD_START), empty);
    folder.put("data", pattern(512));
    folder.line("write --key-file one --in data new").refused(19, empty);
    folder.line("read --key-file one --first 1 --out back new").refused(19, empty);
    folder.line("read --key-file one --out nothing new").accepted();
    assert_eq!(folder.get("nothing"), b"");
    folder.put("new", [folder.get("new"), vec![0; 512]].concat());
    folder.line("write --key-file one --in data new").accepted();
    folder.line("read --key-file one --out back new").accepted();
    assert!(folder.get("back") == folder.get("data"));
}

#[test]
fn format_takes_its_options() {
    let folder = Folder::with_drive();
    folder.put("new", vec![0; LENGTH]);
    let uuid = "6a2b1f0e-3c4d-4e5f-8a9b-0c1d2e3f4a5b";
    folder
        .line(&format!("format --key-size 256 --iterations=2000 --stripes 16 --uuid {uuid} --key-file one new"))
        .accepted();
    let image = folder.get("new");
    assert_eq!(image[104..112], [0, 0, 8, 0, 0, 0, 0, 32], "payload start and key bytes");
    assert_eq!(image[164..168], 1000u32.to_be_bytes(), "checksum count");
    assert_eq!(&image[168..204], uuid.as_bytes());
    assert_eq!(image[212..216], 2000u32.to_be_bytes(), "the slot's count");
    assert_eq!(image[252..256], 16u32.to_be_bytes(), "the slot's stripes");
}

#[test]
fn format_has_sound_defaults() {
    let folder = Folder::with_drive();
    folder.put("new", vec![0; 4096 * 512]);
    folder.line("format --key-file one new").accepted();
    let image = folder.get("new");
    assert_eq!(image[104..112], [0, 0, 0x10, 0, 0, 0, 0, 64], "payload start and key bytes");
    assert_eq!(image[164..168], 62_500u32.to_be_bytes(), "checksum count");
    assert_eq!(image[212..216], 500_000u32.to_be_bytes(), "the slot's count");
    assert_eq!(image[252..256], 4000u32.to_be_bytes(), "the slot's stripes");
    assert_eq!(folder.line("test --key-file one new").accepted().out, "key slot 1 opens\n");
}

// The hash field of a header, up to its first zero byte.
fn hash_of(image: &[u8]) -> &[u8] {
    image[72..104].split(|&byte| byte == 0).next().expect("a part")
}

#[test]
fn format_has_sha1_unless_another_hash_is_asked_for() {
    let folder = Folder::with_drive();
    assert_eq!(hash_of(&folder.get("drive")), b"sha1");
    for (options, hash, key_bytes) in [
        ("--hash sha1", "sha1", 64u32),
        ("--hash=sha1 --key-size 256", "sha1", 32),
        ("--hash sha256", "sha256", 64),
        ("--key-size 512 --hash=sha256", "sha256", 64),
        ("--hash sha256 --key-size 256", "sha256", 32),
    ] {
        folder.put("new", vec![0; LENGTH]);
        let line = format!("format {options} --iterations 1000 --stripes {STRIPES} --key-file one new");
        folder.line(&line).accepted();
        let image = folder.get("new");
        assert_eq!(image[8..72], folder.get("drive")[8..72], "{options}: cipher and mode");
        assert_eq!(hash_of(&image), hash.as_bytes(), "{options}");
        assert!(image[72 + hash.len()..104].iter().all(|&byte| byte == 0), "{options}");
        assert_eq!(image[108..112], key_bytes.to_be_bytes(), "{options}");
        assert_eq!(folder.line("test --key-file one new").accepted().out, "key slot 1 opens\n", "{options}");
    }
}

// Every other command takes the hash from the header.
#[test]
fn the_life_of_a_sha256_drive() {
    for size in ["256", "512"] {
        let folder = Folder::with_drive();
        let options = format!("--force --hash sha256 --key-size {size} --iterations 1000 --stripes {STRIPES}");
        folder.line(&format!("format {options} --key-file one drive")).accepted();
        folder.line("add --iterations 1000 --key-file one --new-key-file two --slot 7 drive").accepted();
        assert_eq!(folder.line("test --key-file two drive").accepted().out, "key slot 7 opens\n");
        assert!(!folder.opens("three"));

        folder.put("plain", pattern(PAYLOAD_UNITS * 512));
        folder.line("write --key-file two --in plain drive").accepted();
        folder.line("change --iterations 1000 --slot 7 --to 3 --key-file two --new-key-file three drive").accepted();
        assert!(folder.opens("one") && !folder.opens("two") && folder.opens("three"));
        folder.line("revoke --force --slot 1 drive").accepted();
        assert!(!folder.opens("one") && folder.opens("three"));
        folder.line("read --key-file three --units 16 --out back drive").accepted();
        assert_eq!(folder.get("back"), folder.get("plain"));
        assert_eq!(hash_of(&folder.get("drive")), b"sha256");

        // The header with the other name: the slot is there, and nothing opens by it.
        let mut image = folder.get("drive");
        image[72..104].fill(0);
        image[72..76].copy_from_slice(b"sha1");
        folder.put("drive", image);
        folder.line("test --key-file three drive").refused(17, "no key slot opens with this passphrase");
    }
}

#[test]
fn format_makes_another_key_each_time() {
    let (one, two) = (Folder::with_drive(), Folder::with_drive());
    let (one, two) = (one.get("drive"), two.get("drive"));
    assert_ne!(one[112..132], two[112..132], "checksum");
    assert_ne!(one[132..164], two[132..164], "checksum salt");
    assert_ne!(one[168..204], two[168..204], "UUID");
    assert_ne!(one[216..248], two[216..248], "the slot's salt");
    assert_ne!(one[8 * 512..9 * 512], two[8 * 512..9 * 512], "the slot's area");
}

#[test]
fn format_over_a_drive_needs_force() {
    let folder = Folder::with_drive();
    let before = folder.get("drive");
    let line = format!("format --iterations 1000 --stripes {STRIPES} --key-file two drive");
    folder.line(&line).failed(73, "drive holds a LUKS drive, which would be lost; use another file, or --force");
    assert_eq!(folder.get("drive"), before);
    folder.line(&format!("{line} --force")).accepted();
    assert!(folder.opens("two") && !folder.opens("one"));
}

#[test]
fn add_uses_the_first_free_slot() {
    let folder = Folder::with_drive();
    for slot in 2..=8 {
        let before = folder.get("drive");
        let said = folder.line("add --iterations 1000 --key-file one --new-key-file two drive").accepted();
        assert_eq!(said.out, format!("key slot {slot} (cryptsetup's {}) holds the new passphrase\n", slot - 1));
        let changed = changed_sectors(&before, &folder.get("drive"));
        assert!(changed.iter().all(|&sector| sector < 2 || area(slot).contains(&sector)), "{changed:?}");
        assert!(area(slot).all(|sector| changed.contains(&sector)), "{changed:?}");
        assert_eq!(
            folder.line(&format!("test --slot {slot} --key-file two drive")).accepted().out,
            format!("key slot {slot} opens\n")
        );
    }
    let before = folder.get("drive");
    folder.line("add --key-file one --new-key-file two drive").refused(15, "every key slot is in use; revoke one");
    folder.line("change --key-file one --new-key-file two drive").refused(15, "every key slot is in use; revoke one");
    assert_eq!(folder.get("drive"), before);
}

#[test]
fn change_by_number_and_by_search() {
    let folder = Folder::with_drive();
    folder.line("add --iterations 1000 --slot 3 --key-file one --new-key-file one drive").accepted();
    let said =
        folder.line("change --iterations 1000 --slot 3 --to 8 --key-file one --new-key-file two drive").accepted();
    assert_eq!(
        said.out,
        "key slot 8 (cryptsetup's 7) holds the new passphrase, and key slot 3 (cryptsetup's 2) is free\n"
    );
    folder.line("test --slot 1 --key-file one drive").accepted();
    let said = folder.line("change --iterations 1000 --key-file one --new-key-file three drive").accepted();
    assert_eq!(
        said.out,
        "key slot 2 (cryptsetup's 1) holds the new passphrase, and key slot 1 (cryptsetup's 0) is free\n"
    );
    assert!(!folder.opens("one") && folder.opens("two") && folder.opens("three"));
    let image = folder.get("drive");
    let slots: Vec<usize> = (1..=8).filter(|&slot| enabled(&image, slot)).collect();
    assert_eq!(slots, [2, 8]);
}

#[test]
fn revoke_overwrites_the_area() {
    let folder = Folder::with_drive();
    folder.line("add --iterations 1000 --key-file one --new-key-file two drive").accepted();
    let before = folder.get("drive");
    folder.line("revoke --force --slot 1 drive").accepted();
    let after = folder.get("drive");
    let changed = changed_sectors(&before, &after);
    assert_eq!(changed, [0].into_iter().chain(area(1)).collect::<Vec<_>>());
    assert!(!enabled(&after, 1));
    assert!(!folder.opens("one") && folder.opens("two"));
}

#[test]
fn read_and_write_some_units() {
    let folder = Folder::with_drive();
    folder.line("read --key-file one --out all drive").accepted();
    let mut all = folder.get("all");
    assert_eq!(all.len(), PAYLOAD_UNITS * 512);
    folder.put("two units", vec![7; 1024]);
    let before = folder.get("drive");
    folder.run(["write", "--key-file", "one", "--first", "3", "--in", "two units", "drive"]).accepted();
    assert_eq!(changed_sectors(&before, &folder.get("drive")), [PAYLOAD_START + 3, PAYLOAD_START + 4]);
    all[3 * 512..5 * 512].fill(7);
    folder.line("read --key-file one --first 2 --units 4 --out some drive").accepted();
    assert_eq!(folder.get("some"), all[2 * 512..6 * 512]);
    let mode = folder.path("some").metadata().expect("a file").permissions().mode();
    assert_eq!(mode & 0o077, 0, "plain bytes are for their owner only");
    folder.line(&format!("read --key-file one --first {PAYLOAD_UNITS} --out nothing drive")).accepted();
    assert_eq!(folder.get("nothing"), b"");
}

#[test]
fn read_and_write_through_pipes() {
    let folder = Folder::with_drive();
    let plain = pattern(PAYLOAD_UNITS * 512);
    let arguments = ["write", "--key-file", "one", "--in", "-", "drive"];
    let mut child = tool()
        .args(arguments)
        .current_dir(folder.path(""))
        .stdin(Stdio::piped())
        .stdout(Stdio::piped())
        .spawn()
        .expect("the tool runs");
    child.stdin.take().expect("a pipe").write_all(&plain).expect("the tool reads");
    assert!(child.wait().expect("the tool ends").success());
    let output =
        tool().args(["read", "--key-file", "one", "--out", "-", "drive"]).current_dir(folder.path("")).output();
    assert_eq!(output.expect("the tool runs").stdout, plain);
}

#[test]
fn a_key_file_counts_with_every_byte() {
    let folder = Folder::with_drive();
    folder.put("newline", "passphrase one\n");
    assert!(folder.opens("one") && !folder.opens("newline"));
    let input = std::fs::File::open(folder.path("one")).expect("a file");
    let said = said(tool().args(["test", "--key-file", "-", "drive"]).current_dir(folder.path("")).stdin(input));
    assert_eq!(said.accepted().out, "key slot 1 opens\n");
    folder.put("bytes", [0, 255, 10, 13]);
    folder.line("add --iterations 1000 --key-file one --new-key-file bytes drive").accepted();
    assert!(folder.opens("bytes"));
}

// A drive of 256 GiB: it is mapped, since reading it would take minutes and memory that is not there.
#[test]
fn a_huge_image_is_not_read_whole() {
    let folder = Folder::with_drive();
    let file = std::fs::File::create(folder.path("huge")).expect("a file");
    let length: u64 = 256 << 30;
    file.set_len(length).expect("a file with a hole");
    let start = Instant::now();
    folder.line("format --iterations 1000 --key-file one huge").accepted();
    let last = length / 512 - 4096 - 1;
    folder.put("unit", pattern(512));
    folder.line(&format!("write --key-file one --first {last} --in unit huge")).accepted();
    folder.line(&format!("read --key-file one --first {last} --out back huge")).accepted();
    assert_eq!(folder.get("back"), pattern(512));
    assert!(start.elapsed() < Duration::from_secs(20));
}

#[test]
fn one_unit_is_one_unit() {
    let folder = Folder::with_drive();
    folder.put("one-unit", pattern(512));
    assert_eq!(folder.line("write --key-file one --in one-unit drive").accepted().out, "1 unit written\n");
    folder.put("two-units", pattern(1024));
    assert_eq!(folder.line("write --key-file one --in two-units drive").accepted().out, "2 units written\n");
}

// A name that is no text, for the key file in both forms, and for the image.
#[test]
fn names_need_not_be_text() {
    use std::ffi::OsStr;
    use std::os::unix::ffi::OsStrExt;
    let folder = Folder::with_drive();
    let name = OsStr::from_bytes(b"key\xff\xfe");
    std::fs::copy(folder.path("one"), folder.path(name)).expect("a copy");
    std::fs::copy(folder.path("drive"), folder.path(OsStr::from_bytes(b"drive\xe4"))).expect("a copy");
    let inline = OsStr::from_bytes(b"--key-file=key\xff\xfe");
    let image = OsStr::from_bytes(b"drive\xe4");
    folder.run([OsStr::new("test"), inline, OsStr::new("drive")]).accepted();
    folder.run([OsStr::new("test"), OsStr::new("--key-file"), name, image]).accepted();
    let missing = [OsStr::new("test"), OsStr::from_bytes(b"--key-file=no\xff"), image];
    folder.run(missing).failed(66, "no\\xff: there is no such file");
}

// Counts of the slot and of the checksum, as the header has them.
fn counts(folder: &Folder, name: &str) -> (u32, u32) {
    let image = folder.get(name);
    let number = |at: usize| u32::from_be_bytes(image[at..at + 4].try_into().expect("four bytes"));
    (number(212), number(164))
}

#[test]
fn iterations_by_number_and_by_time() {
    let folder = Folder::with_drive();
    let format = |options: &str| {
        folder.put("new", vec![0; LENGTH]);
        folder.line(&format!("format {options} --stripes 1 --key-file one new"))
    };
    format("--iterations 24000").accepted();
    assert_eq!(counts(&folder, "new"), (24_000, 3000));
    format("--iterations 2000 --checksum-iterations 5000").accepted();
    assert_eq!(counts(&folder, "new"), (2000, 5000));
    format("--iterations 2000 --checksum-iterations 999").refused(10, "use 1,000 or more");
    format("--iterations 2000 --iter-time 10").failed(64, "--iterations and --iter-time cannot go together");
    format("--iter-time soon").failed(64, "--iter-time needs a number");
    format("--iter-time 0").accepted();
    assert_eq!(counts(&folder, "new"), (1000, 1000));
    format("--iter-time 300").accepted();
    let (slot, checksum) = counts(&folder, "new");
    assert_eq!(checksum, (slot / 8).max(1000));
    // As long as was asked for, on a machine that may be doing other things.
    let start = Instant::now();
    folder.line("test --key-file one new").accepted();
    let took = start.elapsed();
    assert!(took > Duration::from_millis(50) && took < Duration::from_secs(10), "{slot} took {took:?}");
    folder.line("add --iter-time 30 --key-file one --new-key-file two new").accepted();
    let image = folder.get("new");
    let second = u32::from_be_bytes(image[260..264].try_into().expect("four bytes"));
    assert!(second >= 1000 && second < slot, "{second} for 30 ms, {slot} for 300");

    format("--hash sha256 --iter-time 100").accepted();
    assert!(counts(&folder, "new").0 > 1000, "measured with the hash that was asked for");
    folder.line("add --iter-time 30 --key-file one --new-key-file two new").accepted();
    assert_eq!(folder.line("test --key-file two new").accepted().out, "key slot 2 opens\n");
}

#[test]
fn help_in_every_form() {
    let folder = Folder::new();
    let tool_help = folder.line("--help").accepted().out;
    assert_eq!(folder.line("help").accepted().out, tool_help);
    assert_eq!(folder.line("help revoke").accepted().out, folder.line("revoke --help").accepted().out);
    folder.line("help luksFormat").failed(64, "no command 'luksFormat'; 'mivrozh --help'");
    folder.line("help test read").failed(64, "one command at a time");
    assert_eq!(folder.line("-V").accepted().out, folder.line("--version").accepted().out);
}

// cryptsetup's slot numbers are one less.
#[test]
fn messages_and_help_say_what_cryptsetup_calls_a_slot() {
    let folder = Folder::with_drive();
    let added = folder.line("add --iterations 1000 --key-file one --new-key-file two --slot 4 drive").accepted();
    assert_eq!(added.out, "key slot 4 (cryptsetup's 3) holds the new passphrase\n");
    let revoked = folder.line("revoke --force --slot 4 drive").accepted();
    assert_eq!(revoked.out, "key slot 4 (cryptsetup's 3) is free; 1 other key slot stays in use\n");
    assert!(folder.line("--help").accepted().out.contains("our slot 1 is their slot 0"));
    for name in ["add", "change", "revoke", "slots", "test"] {
        let help = folder.line(&format!("{name} --help")).accepted().out;
        let words: Vec<&str> = help.split_whitespace().collect();
        assert!(words.join(" ").contains("cryptsetup counts from 0: our 1 is its 0"), "{name}");
    }
}

#[test]
fn help_for_each_command_with_an_example() {
    let folder = Folder::new();
    let tool_help = folder.line("--help").accepted().out;
    assert!(tool_help.contains("Example:"));
    for name in ["format", "add", "change", "revoke", "slots", "uuid", "test", "read", "write"] {
        assert!(tool_help.contains(&format!("\n  {name} ")), "{name}");
        let help = folder.line(&format!("{name} --help")).accepted().out;
        assert!(help.starts_with(&format!("mivrozh {name}: ")), "{help}");
        assert!(help.contains("\nExample:\n") && help.contains(&format!("  mivrozh {name} ")), "{help}");
    }
    assert!(folder.line("--version").accepted().out.starts_with("mivrozh "));
}
