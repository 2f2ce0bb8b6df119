//! The bar while keys are derived: at a pseudo-terminal, where it ends with the exact number of HMAC values, and nowhere else.
mod common;
#[path = "common/pty.rs"]
mod pty;
use common::*;
use pty::{command, shell, start, Session, Terminal};
use std::sync::OnceLock;
use std::time::Duration;

const SIGHUP: i32 = 1;
const SIGINT: i32 = 2;
const SIGQUIT: i32 = 3;
const SIGTERM: i32 = 15;

// A drive whose slots 1 and 2, with the passphrases of `one` and `two`, each take this machine about a second and a half: thrice as
// long as what shows no bar, since other tests run meanwhile. It is made once.
fn slow() -> Folder {
    static MADE: OnceLock<Vec<u8>> = OnceLock::new();
    let folder = Folder::with_drive();
    let made = MADE.get_or_init(|| {
        let options = format!("--iter-time 1500 --checksum-iterations 1000 --stripes {STRIPES}");
        folder.line(&format!("format --force {options} --key-file one drive")).accepted();
        folder.line("add --iter-time 1500 --key-file one --new-key-file two drive").accepted();
        folder.get("drive")
    });
    folder.put("drive", made);
    folder.put("unit", [7; 512]);
    folder
}

fn number_at(image: &[u8], at: usize) -> u64 {
    u32::from_be_bytes(image[at..at + 4].try_into().expect("four bytes")).into()
}

// HMAC values by the counts in the header: of a checksum, of a slot's key, which is four blocks of sha1, and of a trial.
fn checksum(folder: &Folder) -> u64 {
    number_at(&folder.get("drive"), 164)
}

fn derivation(folder: &Folder, slot: usize) -> u64 {
    4 * number_at(&folder.get("drive"), 208 + 48 * (slot - 1) + 4)
}

fn trial(folder: &Folder, slot: usize) -> u64 {
    derivation(folder, slot) + checksum(folder)
}

// As the tool says it.
fn values(number: u64) -> String {
    let digits = number.to_string();
    let groups: Vec<&str> =
        digits.as_bytes().rchunks(3).rev().map(|group| std::str::from_utf8(group).unwrap()).collect();
    format!("{} HMAC values", groups.join(","))
}

// What is drawn of a bar with this name: one text over the other, and the last, which ends the line.
#[track_caller]
fn bar<'a>(shown: &'a str, what: &str) -> (Vec<&'a str>, &'a str) {
    let line = shown.split("\r\n").find(|line| line.contains(&format!("\r{what}: ")));
    let line = line.unwrap_or_else(|| panic!("there is no bar '{what}': {shown:?}"));
    let mut texts: Vec<&str> = line.split('\r').map(str::trim_end).filter(|text| !text.is_empty()).collect();
    let last = texts.pop().expect("a last text");
    (texts, last)
}

// What stands on the terminal in the end: of each line the last text that was put there.
fn settled(shown: &str) -> Vec<&str> {
    let last = |line: &'_ str| -> usize { line.trim_end().rfind('\r').map_or(0, |at| at + 1) };
    shown.split_terminator("\r\n").map(|line| line[last(line)..].trim_end()).collect()
}

// A bar with this name was drawn: it moves, never back and not to its end, and ends with this number.
#[track_caller]
fn drawn(shown: &str, what: &str, number: u64) {
    let (texts, last) = bar(shown, what);
    let mut before = 0;
    for text in &texts {
        let (bar, rest) = text.strip_prefix(&format!("{what}: [")).and_then(|text| text.split_once("] ")).expect(text);
        assert!(bar.ends_with('.') && bar.trim_start_matches('#').chars().all(|cell| cell == '.'), "{text}");
        let percent: u32 = rest.split('%').next().and_then(|percent| percent.trim().parse().ok()).expect(text);
        assert!((before..100).contains(&percent), "{texts:?}");
        before = percent;
    }
    assert!(texts.len() >= 3 && before > 0, "the bar moves: {texts:?}");
    let end = format!("{what}: {} in ", values(number));
    assert!(last.starts_with(&end) && last.ends_with(" s"), "'{last}' does not begin with '{end}'");
}

#[track_caller]
fn done(session: Session) -> String {
    let (status, shown) = session.end();
    assert_eq!(status, 0, "{shown}");
    shown
}

#[test]
fn a_search_ends_with_its_own_number() {
    let folder = slow();
    let shown = done(start(&folder, "test --key-file two drive"));
    drawn(&shown, "opening", trial(&folder, 1) + trial(&folder, 2));
    assert_eq!((settled(&shown).len(), settled(&shown)[1]), (2, "key slot 2 opens"));
    // One that opens the first slot goes no further.
    let shown = done(start(&folder, "test --key-file one drive"));
    drawn(&shown, "opening", trial(&folder, 1));
    assert_eq!((settled(&shown).len(), settled(&shown)[1]), (2, "key slot 1 opens"));
    let shown = done(start(&folder, "test --slot 2 --key-file two drive"));
    drawn(&shown, "opening", trial(&folder, 2));
}

#[test]
fn reading_and_writing_have_a_bar_for_their_opening() {
    let folder = slow();
    let shown = done(start(&folder, "write --key-file one --in unit drive"));
    drawn(&shown, "opening", trial(&folder, 1));
    assert_eq!((settled(&shown).len(), settled(&shown)[1]), (2, "1 unit written"));
    let shown = done(start(&folder, "read --key-file one --units 1 --out back drive"));
    drawn(&shown, "opening", trial(&folder, 1));
    assert_eq!(folder.get("back"), [7; 512]);
}

#[test]
fn adding_and_changing_have_two_bars() {
    let folder = slow();
    let shown = done(start(&folder, "add --iter-time 1500 --key-file one --new-key-file three --slot 3 drive"));
    drawn(&shown, "opening", trial(&folder, 1));
    drawn(&shown, "adding the passphrase", checksum(&folder) + derivation(&folder, 3));
    assert!(folder.opens("three"));
    let first = trial(&folder, 1);
    let line = "change --iter-time 1500 --slot 1 --to 4 --key-file one --new-key-file unit drive";
    let shown = done(start(&folder, line));
    drawn(&shown, "opening", first);
    drawn(&shown, "changing the passphrase", first + derivation(&folder, 4));
    assert!(folder.opens("unit") && !folder.opens("one"));
}

// The checksum, too, may take long: then a bar is drawn for it.
#[test]
fn a_slow_checksum_has_a_bar() {
    let folder = slow();
    let said = folder.line("estimate --json drive").accepted().out;
    let rate = said.split("\"checksums\":").nth(1).and_then(|rest| rest.trim_end_matches("}}\n").parse::<u64>().ok());
    let count = rate.expect(&said) * 3 / 2;
    let options = format!("--iterations 1000 --checksum-iterations {count} --stripes {STRIPES}");
    let shown = done(start(&folder, &format!("format --force {options} --key-file one drive")));
    assert_eq!(checksum(&folder), count);
    drawn(&shown, "computing the key's checksum", count);
    drawn(&shown, "adding the passphrase", count + 4000);
    folder.put("empty", "");
    for line in ["read --units 0 --out back --key-file one drive", "write --in empty --key-file one drive"] {
        let shown = done(start(&folder, line));
        drawn(&shown, "opening", 4000 + count);
        drawn(&shown, "testing the key", count);
    }
}

// A passphrase that opens nothing: the line is ended before anything else is said, and prompts have lines of their own.
#[test]
fn a_refused_passphrase_ends_the_line_too() {
    let folder = slow();
    let mut session = start(&folder, "test drive");
    session.answer("Passphrase: ", "wrong\n");
    let refused = session.wait_for("no key slot opens with this passphrase; try again\r\n");
    drawn(&refused, "opening", trial(&folder, 1) + trial(&folder, 2));
    assert!(refused.starts_with("\r\n\ropening: "), "{refused:?}");
    assert_eq!(
        (settled(&refused).len(), settled(&refused)[2]),
        (3, "no key slot opens with this passphrase; try again")
    );
    session.wait_for("Passphrase: ");
    assert!(!session.echoes(), "the bar has turned the echo on");
    session.keys("passphrase one\n");
    let opened = session.wait_for("key slot 1 opens\r\n");
    drawn(&opened, "opening", trial(&folder, 1));
    done(session);

    let (status, shown) = start(&folder, "test --key-file three drive").end();
    assert_eq!(status, 17);
    drawn(&shown, "opening", trial(&folder, 1) + trial(&folder, 2));
    assert!(settled(&shown).len() == 2 && settled(&shown)[1].starts_with("mivrozh: refusal 17: "), "{shown:?}");
}

#[test]
fn nothing_is_drawn_where_standard_error_is_no_terminal() {
    let folder = slow();
    folder.line("test --key-file one drive").accepted();
    folder.line("test --slot 1 --key-file three drive").refused(17, "key slot 1 does not open");
    let shown = done(shell(&folder, r#""$TOOL" test --key-file one drive 2>said"#));
    assert_eq!(shown, "key slot 1 opens\r\n");
    assert_eq!(folder.get("said"), b"");
    let shown = done(shell(&folder, r#""$TOOL" test --key-file one drive 2>&1 | cat"#));
    assert_eq!(shown, "key slot 1 opens\r\n");
    // It is standard error that counts.
    let shown = done(shell(&folder, r#""$TOOL" test --key-file one drive >said </dev/null"#));
    drawn(&shown, "opening", trial(&folder, 1));
    assert_eq!(folder.get("said"), b"key slot 1 opens\n");
}

#[test]
fn what_is_short_draws_nothing() {
    let folder = Folder::with_drive();
    assert_eq!(done(start(&folder, "test --key-file one drive")), "key slot 1 opens\r\n");
    // Nor does what derives nothing.
    let folder = slow();
    let (status, shown) = start(&folder, "test --slot 5 --key-file one drive").end();
    assert_eq!((status, shown.lines().count()), (15, 1), "{shown:?}");
    let (status, shown) = start(&folder, "test --key-file /dev/null drive").end();
    assert_eq!((status, shown.lines().count()), (14, 1), "{shown:?}");
}

// The widest text on a line, in columns.
fn widest(shown: &str) -> usize {
    shown.split(['\r', '\n']).map(str::len).max().unwrap_or(0)
}

// The last column stays free, and what does not fit is left out.
#[test]
fn a_line_is_never_wider_than_the_terminal() {
    let folder = slow();
    let number = values(trial(&folder, 1));
    let digits = number.trim_end_matches(" HMAC values");
    let whole = format!("opening: {number}");
    for (columns, end) in [
        (200, format!("{whole} in ")),
        (whole.len() + 1, whole.clone()),
        (whole.len(), number.clone()),
        (number.len(), digits.into()),
        (digits.len() + 1, digits.into()),
        (digits.len(), digits.replace(',', "")),
    ] {
        let terminal = Terminal::new();
        terminal.set_columns(columns as u16);
        let mut command = command(&folder, "test --key-file one --slot 1 drive");
        let mut session = Session::start_at(terminal, &mut command, None);
        let drawn = session.wait_for("\r\n");
        assert!(widest(&drawn) < columns, "{columns} columns: {drawn:?}");
        assert!(drawn.contains('%') && drawn.contains(&format!("\r{end}")), "{columns} columns: {drawn:?}");
        assert_eq!(settled(&done(session))[1], "key slot 1 opens");
    }
}

// Where the terminal says nothing, the environment may.
#[test]
fn the_environment_says_how_wide_a_terminal_is() {
    let folder = slow();
    let mut narrow = command(&folder, "test --key-file one drive");
    let mut session = Session::start(narrow.env("COLUMNS", "20"), None);
    let shown = session.wait_for("\r\n");
    let (texts, _) = bar(&shown, "opening");
    assert!(
        !texts.is_empty() && texts.iter().all(|text| text.len() < 20 && text.starts_with("opening: ")),
        "{shown:?}"
    );
    done(session);
    // None is no width.
    let mut none = command(&folder, "test --key-file one drive");
    drawn(&done(Session::start(none.env("COLUMNS", "0"), None)), "opening", trial(&folder, 1));
}

#[test]
fn a_signal_ends_the_line() {
    let folder = slow();
    for number in [SIGHUP, SIGINT, SIGQUIT, SIGTERM] {
        let mut session = start(&folder, "test --key-file two drive");
        session.wait_for("s left");
        session.signal(number);
        let (status, shown) = session.end();
        assert_eq!(status, -number, "{shown:?}");
        assert!(shown.ends_with("s left\r\n") && !shown.contains("HMAC"), "{shown:?}");
    }
}

// The key that halts a terminal's output: the work goes on all the same.
const HALT: &str = "\u{13}";

#[test]
fn a_halted_terminal_does_not_halt_the_work() {
    let folder = slow();
    let line = "add --iter-time 1500 --slot 3 --key-file one --new-key-file three drive";
    let mut session = shell(&folder, &format!(r#"exec "$TOOL" {line} >said"#));
    session.wait_for("s left");
    session.keys(HALT);
    let shown = done(session);
    assert!(!shown.contains("HMAC"), "{shown:?}");
    assert!(folder.opens("three"));
}

#[test]
fn a_signal_ends_the_tool_at_a_halted_terminal_too() {
    let folder = slow();
    let mut session = start(&folder, "test --key-file two drive");
    session.wait_for("s left");
    session.keys(HALT);
    // Meanwhile the bar would move.
    std::thread::sleep(Duration::from_millis(500));
    session.signal(SIGTERM);
    let (status, shown) = session.end();
    assert_eq!(status, -SIGTERM, "{shown:?}");
}

// As under nohup: an ignored signal stays ignored.
#[test]
fn an_ignored_signal_ends_nothing() {
    let folder = slow();
    let mut session = shell(&folder, r#"trap "" INT TERM; exec "$TOOL" test --key-file one drive"#);
    session.wait_for("s left");
    session.signal(SIGINT);
    session.signal(SIGTERM);
    session.wait_for("HMAC values in ");
    done(session);
}

// The terminal is another program's then.
#[test]
fn nothing_is_drawn_in_the_background() {
    let folder = slow();
    let shown = done(shell(&folder, r#"set -m; "$TOOL" test --key-file one drive & wait %1"#));
    assert!(shown.contains("key slot 1 opens\r\n") && !shown.contains("opening"), "{shown:?}");
}

// A stopped tool goes on where it was.
#[test]
fn a_stop_is_no_progress() {
    let folder = slow();
    let line = r#"set -m; "$TOOL" test --key-file two drive; echo "stopped [$?]"; sleep 4; fg >&2"#;
    let mut session = shell(&folder, line);
    let percent =
        |text: &str| text.rsplit('%').nth(1).and_then(|text| text[text.len() - 2..].trim().parse::<u32>().ok());
    let before = session.wait_for("s left");
    session.keys("\u{1a}");
    session.wait_for("stopped [148]\r\n");
    let after = session.wait_for("s left");
    // The four seconds count as a moment, though they are longer than the opening.
    let (before, after) = (percent(&before).expect("a number"), percent(&after).expect("a number"));
    assert!(after < before + 50, "{before}, {after}");
    session.wait_for("HMAC values in ");
    done(session);
}
