//! What the tool says of the time of an opening: `test --verbose` afterwards, `estimate` before.
mod common;
use common::*;
use std::fs::OpenOptions;

// The drive of `Folder::with_drive` has a key of 512 bits with sha1, which is four blocks, and every count is 1,000.
const TRIAL: &str = "5,000";

// The two lines of a test with --verbose: what it says first, and number, time and rate.
#[track_caller]
fn verbose(out: &str) -> (Option<&str>, &str, f64, f64) {
    let (first, last) = match out.lines().collect::<Vec<_>>()[..] {
        [first, last] => (Some(first), last),
        [last] => (None, last),
        _ => panic!("{out}"),
    };
    let (number, rest) = last.split_once(" HMAC values in ").expect(out);
    let (time, rate) = rest.split_once(" s, ").expect(out);
    let rate = rate.strip_suffix(" a second").expect(out).replace(',', "");
    (first, number, time.parse().expect(out), rate.parse().expect(out))
}

#[test]
fn a_test_says_what_it_took() {
    let folder = Folder::with_drive();
    folder.line("add --iterations 3000 --key-file one --new-key-file two drive").accepted();
    let said = folder.line("test --verbose --key-file two drive").accepted();
    let (first, number, time, rate) = verbose(&said.out);
    assert_eq!((first, number), (Some("key slot 2 opens"), "18,000"));
    // The time is rounded to milliseconds.
    assert!(18_000.0 / rate > time - 0.0006 && 18_000.0 / rate < time + 0.0006, "{}", said.out);
    let said = folder.line("test --slot 1 --verbose --key-file one drive").accepted();
    assert_eq!(verbose(&said.out).1, TRIAL);
    // Without it nothing is added.
    assert_eq!(folder.line("test --key-file two drive").accepted().out, "key slot 2 opens\n");
}

#[test]
fn a_test_that_opens_nothing_says_it_too() {
    let folder = Folder::with_drive();
    folder.line("add --iterations 3000 --key-file one --new-key-file two drive").accepted();
    let said = folder.line("test --verbose --key-file three drive");
    assert_eq!((said.status, said.err.starts_with("mivrozh: refusal 17: ")), (17, true), "{said:?}");
    let (first, number, _, _) = verbose(&said.out);
    assert_eq!((first, number), (None, "18,000"), "all enabled slots were tried");
    let said = folder.line("test --slot 1 --verbose --key-file three drive");
    assert_eq!((said.status, verbose(&said.out).1), (17, TRIAL));
    // Where nothing was derived there is nothing to say.
    folder.line("test --slot 5 --verbose --key-file one drive").refused(15, "is not in use");
    folder.line("test --verbose --key-file /dev/null drive").refused(14, "1 to 512 bytes");
    folder.line("test --key-file three drive").refused(17, "no key slot opens");
    // A standard output that is full does not hide the refusal; of a test that opens it is a failure.
    let full = |line: &str| {
        let full = OpenOptions::new().write(true).open("/dev/full").expect("/dev/full");
        common::said(tool().args(line.split_whitespace()).current_dir(folder.path("")).stdout(full))
    };
    full("test --verbose --key-file three drive").refused(17, "no key slot opens");
    full("test --verbose --key-file one drive").failed(74, "standard output");
}

// The table's cells, which stand two spaces apart or more.
fn rows(table: &str) -> Vec<Vec<&str>> {
    table.lines().map(|line| line.split("  ").map(str::trim).filter(|cell| !cell.is_empty()).collect()).collect()
}

// A number after a name in JSON.
#[track_caller]
fn number(json: &str, name: &str) -> f64 {
    let (_, rest) = json.split_once(&format!("\"{name}\":")).unwrap_or_else(|| panic!("{name} is not in {json}"));
    let end = rest.find([',', '}']).expect("an end");
    rest[..end].parse().unwrap_or_else(|_| panic!("{name} in {json}"))
}

#[test]
fn an_estimate_has_the_exact_numbers() {
    let folder = Folder::with_drive();
    folder.line("add --iterations 2345 --slot 6 --key-file one --new-key-file two drive").accepted();
    let before = folder.get("drive");
    let said = folder.line("estimate drive").accepted().out;
    let rows = rows(&said);
    assert_eq!(rows[0], ["slot", "cryptsetup's", "HMAC values", "time here"]);
    assert_eq!(rows[1][..3], ["1", "0", TRIAL]);
    assert_eq!(rows[2][..3], ["6", "5", "10,380"]);
    assert_eq!(rows[3][..2], ["failed search", "15,380"]);
    assert!(rows[1..4].iter().all(|row| row.last().is_some_and(|time| time.ends_with(" s"))), "{said}");
    assert!(rows.len() == 5 && rows[4][0].starts_with("measured here: "), "{said}");
    assert_eq!(folder.get("drive"), before);
    // What a failed search makes is what was said.
    let said = folder.line("test --verbose --key-file three drive");
    assert_eq!(verbose(&said.out).1, "15,380");
}

// Times are numbers by rates, of keys and of checksums each by its own. The checksum's count is large here beside the slots'.
#[test]
fn an_estimate_for_programs() {
    let folder = Folder::with_drive();
    folder.line("add --iterations 3000 --slot 6 --key-file one --new-key-file two drive").accepted();
    let mut image = folder.get("drive");
    image[164..168].copy_from_slice(&50_000_000u32.to_be_bytes());
    folder.put("drive", &image);
    let said = folder.line("estimate --json drive").accepted().out;
    let lines: Vec<&str> = said.lines().collect();
    assert_eq!((lines.len(), lines[0]), (4, r#"{"slots":["#), "{said}");
    assert!(lines[1].starts_with(r#"  {"slot":1,"values":50004000,"seconds":"#) && lines[1].ends_with("},"), "{said}");
    assert!(lines[2].starts_with(r#"  {"slot":6,"values":50012000,"seconds":"#) && lines[2].ends_with("}"), "{said}");
    assert!(lines[3].starts_with(r#"],"search":{"values":100016000,"seconds":"#), "{said}");
    let (keys, checksums) = (number(lines[3], "keys"), number(lines[3], "checksums"));
    let time = |derivations: f64, sums: f64| derivations / keys + sums / checksums;
    for (line, seconds) in [(lines[2], time(12_000.0, 5e7)), (lines[3], time(16_000.0, 1e8))] {
        assert!((number(line, "seconds") - seconds).abs() < 0.001, "{seconds}: {said}");
    }
}

// Another tool may write counts up to 2^32 - 1, in a header that asks for hours and days.
#[test]
fn an_estimate_of_days() {
    let folder = Folder::with_drive();
    let mut image = folder.get("drive");
    for slot in 0..8 {
        image[208 + 48 * slot..][..8].copy_from_slice(&[0, 0xAC, 0x71, 0xF3, 0xFF, 0xFF, 0xFF, 0xFF]);
    }
    image[164..168].fill(0xFF);
    folder.put("drive", &image);
    let said = folder.line("estimate drive").accepted().out;
    let rows = rows(&said);
    assert_eq!(rows[8][..3], ["8", "7", "21,474,836,475"]);
    assert_eq!(rows[9][..2], ["failed search", "171,798,691,800"]);
    let time = rows[9][2];
    assert!(time.ends_with(" h") || time.ends_with(" min"), "{said}");
    let said = folder.line("estimate --json drive").accepted().out;
    assert!(said.contains(r#""search":{"values":171798691800,"seconds":"#), "{said}");
}

#[test]
fn an_estimate_of_a_drive_without_passphrases() {
    let folder = Folder::with_drive();
    let mut image = folder.get("drive");
    image[208..212].copy_from_slice(&[0, 0, 0xDE, 0xAD]);
    folder.put("drive", &image);
    let said = folder.line("estimate drive").accepted().out;
    assert_eq!(rows(&said)[1], ["failed search", "0", "0.000 s"]);
    let said = folder.line("estimate --json drive").accepted().out;
    assert!(said.starts_with("{\"slots\":[\n],\"search\":{\"values\":0,\"seconds\":0.000},"), "{said}");
}

// No passphrase is asked for, and a drive that is none is refused.
#[test]
fn an_estimate_looks_only() {
    let folder = Folder::with_drive();
    folder.mode("drive", 0o444);
    folder.line_by_mode("estimate drive").accepted();
    folder.put("none", pattern(4096));
    folder.line("estimate none").refused(2, "not a LUKS drive");
    folder.line("estimate missing").failed(66, "there is no such file");
    folder.line("estimate --key-file one drive").failed(64, "there is no option --key-file");
    folder.line("estimate --details drive").failed(64, "there is no option --details");
    folder.line("test --verbose=yes drive").failed(64, "--verbose takes no value");
}
