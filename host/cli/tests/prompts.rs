//! The prompts, at a pseudo-terminal: passphrases without echo, twice for a new one, three tries, questions, progress.
mod common;
#[path = "common/pty.rs"]
mod pty;
use common::*;
use pty::{Session, Terminal, ICANON};
use std::fs::File;
use std::os::unix::fs::FileExt;
use std::process::{Command, Stdio};
use std::time::Duration;

const ONE: &str = "passphrase one";
const AGAIN: &str = "The same again: ";
const NEW: &str = "New passphrase, for key slot 2: ";

fn start(folder: &Folder, line: &str) -> Session {
    Session::start(tool().args(line.split_whitespace()).current_dir(folder.path("")), None)
}

// Nothing that was typed as a passphrase is shown.
#[track_caller]
fn silent(shown: &str, passphrases: &[&str]) {
    for passphrase in passphrases {
        assert!(!shown.contains(passphrase), "the terminal shows {passphrase}: {shown}");
    }
}

#[test]
fn format_asks_twice() {
    let folder = Folder::new();
    folder.put("drive", vec![0; LENGTH]);
    let mut session = start(&folder, &format!("format --iterations 1000 --stripes {STRIPES} drive"));
    session.answer("Passphrase for the new drive: ", "first try\n");
    session.answer(AGAIN, "first try\n");
    let (status, shown) = session.end();
    assert_eq!(status, 0, "{shown}");
    silent(&shown, &["first try"]);
    folder.put("key", "first try");
    assert!(folder.opens("key"));
}

#[test]
fn two_that_differ_three_times_change_nothing() {
    let folder = Folder::with_drive();
    let before = folder.get("drive");
    let mut session = start(&folder, "add --iterations 1000 --key-file one drive");
    for _ in 0..3 {
        session.answer(NEW, "a word\n");
        session.answer(AGAIN, "another\n");
    }
    let (status, shown) = session.end();
    assert_eq!(status, 65);
    assert_eq!(shown.matches("\r\nthe two passphrases differ; try again\r\n").count(), 2, "{shown}");
    assert!(shown.contains("mivrozh: the two passphrases differ; try again (nothing was changed)"), "{shown}");
    silent(&shown, &["a word", "another"]);
    assert_eq!(folder.get("drive"), before);
}

// An arrow, a quoted control key, a tab: what nobody could type again elsewhere.
#[test]
fn control_keys_in_a_new_passphrase_are_refused() {
    let folder = Folder::with_drive();
    let before = folder.get("drive");
    let sentence =
        "a control key was typed, such as an arrow or Ctrl-V; type the passphrase again without it, or use a key";
    let mut session = start(&folder, "add --iterations 1000 --key-file one drive");
    for keys in ["up\u{1b}[Adown\n", "quoted\u{16}\u{1}\n", "a\ttab\n"] {
        session.answer(NEW, keys);
    }
    let (status, shown) = session.end();
    assert_eq!(status, 65, "{shown}");
    assert_eq!(shown.matches(sentence).count(), 3, "{shown}");
    assert!(shown.contains("use a key file (nothing was changed)") && !shown.contains(AGAIN), "{shown}");
    assert_eq!(folder.get("drive"), before);
}

#[test]
fn a_new_passphrase_can_be_right_at_the_third_try() {
    let folder = Folder::with_drive();
    let mut session = start(&folder, "change --iterations 1000 --key-file one drive");
    session.answer(NEW, "del\u{16}\u{7f}ete\n");
    session.answer(NEW, "passphrase two\n");
    session.answer(AGAIN, "passphrase tow\n");
    session.answer(NEW, "passphrase two\n");
    session.answer(AGAIN, "passphrase two\n");
    let (status, shown) = session.end();
    assert_eq!(status, 0, "{shown}");
    assert!(folder.opens("two") && !folder.opens("one"));
}

#[test]
fn a_passphrase_of_a_wrong_length_is_asked_for_again() {
    let folder = Folder::with_drive();
    let before = folder.get("drive");
    let sentence = "a passphrase must have 1 to 512 bytes; try again";
    let (empty, long) = ("\n", format!("{}\n", "x".repeat(513)));
    for (line, prompt) in [("add --iterations 1000 --key-file one drive", NEW), ("test drive", "Passphrase: ")] {
        let mut session = start(&folder, line);
        for keys in [empty, &long, empty] {
            session.answer(prompt, keys);
        }
        let (status, shown) = session.end();
        assert_eq!(status, 14, "{shown}");
        assert_eq!(shown.matches(sentence).count(), 2, "{shown}");
        assert!(shown.contains("mivrozh: refusal 14"), "{shown}");
    }
    assert_eq!(folder.get("drive"), before);
    // The longest, and the longest line that a terminal takes.
    let longest = "x".repeat(512);
    let mut session = start(&folder, "add --iterations 1000 --key-file one drive");
    session.answer(NEW, &format!("{}\n", "x".repeat(4095)));
    for prompt in [NEW, AGAIN] {
        session.answer(prompt, &format!("{longest}\n"));
    }
    let (status, shown) = session.end();
    assert_eq!(status, 0, "{shown}");
    folder.put("longest", longest);
    assert!(folder.opens("longest"));
}

#[test]
fn a_mistyped_passphrase_is_asked_for_again() {
    let folder = Folder::with_drive();
    for (line, prompt) in [
        ("test drive", "Passphrase: "),
        ("read --out /dev/null --units 0 drive", "Passphrase: "),
        ("write --in empty drive", "Passphrase: "),
        ("add --iterations 1000 --slot 5 --new-key-file two drive", "Passphrase that the drive has: "),
        ("change --iterations 1000 --new-key-file two drive", "Old passphrase: "),
    ] {
        folder.put("empty", "");
        let mut session = start(&folder, line);
        session.answer(prompt, "pasphrase one\n");
        session.wait_for("no key slot opens with this passphrase; try again\r\n");
        session.answer(prompt, "\n");
        session.wait_for("a passphrase must have 1 to 512 bytes; try again\r\n");
        session.answer(prompt, &format!("{ONE}\n"));
        let (status, shown) = session.end();
        assert_eq!(status, 0, "{shown}");
        silent(&shown, &["pasphrase one", ONE]);
    }
    assert!(folder.opens("two") && !folder.opens("one"));
}

#[test]
fn three_wrong_passphrases_are_the_end() {
    let folder = Folder::with_drive();
    let before = folder.get("drive");
    for (line, sentence) in [
        ("test drive", "no key slot opens with this passphrase"),
        ("test --slot 1 drive", "key slot 1 does not open with this passphrase"),
        ("change drive", "no key slot opens with this passphrase"),
    ] {
        let mut session = start(&folder, line);
        for _ in 0..3 {
            session.answer("assphrase: ", "wrong\n");
        }
        let (status, shown) = session.end();
        assert_eq!(status, 17, "{shown}");
        assert_eq!(shown.matches(&format!("\r\n{sentence}; try again\r\n")).count(), 2, "{shown}");
        assert_eq!(shown.matches(&format!("mivrozh: refusal 17: {sentence}")).count(), 1, "{shown}");
        silent(&shown, &["wrong"]);
    }
    assert_eq!(folder.get("drive"), before);
}

// A slot that is not in use does not open with another passphrase either.
#[test]
fn other_refusals_are_the_end_at_once() {
    let folder = Folder::with_drive();
    let mut session = start(&folder, "test --slot 2 drive");
    session.answer("Passphrase: ", &format!("{ONE}\n"));
    let (status, shown) = session.end();
    assert_eq!(status, 15, "{shown}");
}

#[test]
fn add_and_change_and_test_ask() {
    let folder = Folder::with_drive();
    let mut session = start(&folder, "add --iterations 1000 --slot 4 drive");
    session.answer("Passphrase that the drive has: ", &format!("{ONE}\n"));
    session.answer("New passphrase, for key slot 4: ", "second\n");
    session.answer(AGAIN, "second\n");
    let (status, shown) = session.end();
    assert_eq!(status, 0, "{shown}");
    silent(&shown, &[ONE, "second"]);

    let mut session = start(&folder, "change --iterations 1000 drive");
    session.answer("Old passphrase: ", "second\n");
    session.answer("New passphrase, for key slot 2: ", "third\n");
    session.answer(AGAIN, "third\n");
    let (status, shown) = session.end();
    assert_eq!(status, 0, "{shown}");
    silent(&shown, &["second", "third"]);

    let mut session = start(&folder, "test drive");
    session.answer("Passphrase: ", "third\n");
    let (status, shown) = session.end();
    assert_eq!(status, 0, "{shown}");
    assert!(shown.contains("key slot 2 opens"), "{shown}");
}

// The drive is looked at before anything is asked for, and the old passphrase is tried before the new one is asked for.
#[test]
fn nothing_is_asked_in_vain() {
    let folder = Folder::with_drive();
    for (line, status) in
        [("add --slot 1 drive", 15), ("add --slot 9 drive", 13), ("test one", 1), ("change --to 1 drive", 15)]
    {
        let (ended, shown) = start(&folder, line).end();
        assert_eq!(ended, status, "{shown}");
        assert!(!shown.contains("assphrase:"), "{shown}");
    }
    for line in ["add drive", "change drive"] {
        let mut session = start(&folder, line);
        for _ in 0..3 {
            session.answer(": ", "wrong\n");
            session.wait_for("opens with this passphrase; try");
        }
        let (status, shown) = session.end();
        assert_eq!(status, 17, "{shown}");
        assert!(!shown.contains("New passphrase"), "{shown}");
    }
}

#[test]
fn format_asks_before_it_overwrites_a_drive() {
    let folder = Folder::with_drive();
    let before = folder.get("drive");
    let line = format!("format --iterations 1000 --stripes {STRIPES} --key-file two drive");
    let spaces = format!("yes{}no\n", " ".repeat(1000));
    for answer in ["no\n", "\n", "y\n", "\u{4}", &spaces] {
        let mut session = start(&folder, &line);
        session.answer("holds a LUKS drive, which will be lost. Type yes to go on: ", answer);
        let (status, shown) = session.end();
        assert_eq!(status, 65, "{shown}");
        assert!(shown.contains("not confirmed; nothing was changed"), "{shown}");
        assert_eq!(folder.get("drive"), before);
    }
    let mut session = start(&folder, &line);
    session.answer("Type yes to go on: ", "yes\n");
    let (status, shown) = session.end();
    assert_eq!(status, 0, "{shown}");
    assert!(folder.opens("two") && !folder.opens("one"));
}

// What /proc says of the tool: a number after a word.
fn number_of(session: &Session, file: &str, word: &str) -> usize {
    let text = std::fs::read_to_string(format!("/proc/{}/{file}", session.process())).expect("a file of the tool's");
    let number = text.lines().find_map(|line| line.strip_prefix(word)?.split_whitespace().next()?.parse().ok());
    number.expect("a number")
}

// At a terminal that does not end a line by itself, an answer has no end.
#[test]
fn an_endless_answer_takes_no_memory() {
    const MIB: usize = 1024 * 1024;
    let folder = Folder::with_drive();
    if !folder.may_look() {
        return;
    }
    let line = format!("format --iterations 1000 --stripes {STRIPES} --key-file two drive");
    let mut command = tool();
    command.args(line.split_whitespace()).current_dir(folder.path(""));
    let terminal = Terminal::new();
    terminal.set(|settings| settings.local &= !ICANON);
    let mut session = Session::start_at(terminal, &mut command, None);
    session.wait_for("Type yes to go on: ");
    let read = || number_of(&session, "io", "rchar:");
    let memory = || number_of(&session, "status", "VmHWM:") * 1024;
    let (read_before, memory_before) = (read(), memory());
    session.keys(&"y".repeat(MIB));
    while read() < read_before + MIB {
        std::thread::sleep(Duration::from_millis(10));
    }
    assert!(memory() < memory_before + MIB / 2);
    session.keys("\n");
    let (status, shown) = session.end();
    assert_eq!(status, 65);
    assert!(shown.contains("not confirmed; nothing was changed"));
}

// The data come by standard input and the passphrase from the terminal.
#[test]
fn write_asks_while_data_come_by_standard_input() {
    let folder = Folder::with_drive();
    folder.put("data", pattern(1024));
    let data = File::open(folder.path("data")).expect("a file");
    let mut command = tool();
    command.args(["write", "--in", "-", "drive"]).current_dir(folder.path(""));
    let mut session = Session::start(&mut command, Some(Stdio::from(data)));
    session.answer("Passphrase: ", &format!("{ONE}\n"));
    let (status, shown) = session.end();
    assert_eq!(status, 0, "{shown}");
    folder.line("read --key-file one --units 2 --out back drive").accepted();
    assert_eq!(folder.get("back"), pattern(1024));
}

// Does the tool's memory have these bytes anywhere?
fn remembers(process: u32, bytes: &[u8]) -> bool {
    let maps = std::fs::read_to_string(format!("/proc/{process}/maps")).expect("the tool's memory");
    let memory = File::open(format!("/proc/{process}/mem")).expect("the tool's memory");
    maps.lines().filter(|line| line.contains(" rw") && !line.ends_with("drive")).any(|line| {
        let (start, end) = line.split_once(' ').and_then(|(range, _)| range.split_once('-')).expect("a range");
        let number = |text| u64::from_str_radix(text, 16).expect("an address");
        let mut piece = vec![0; (number(end) - number(start)) as usize];
        memory.read_exact_at(&mut piece, number(start)).expect("the tool's memory");
        piece.windows(bytes.len()).any(|window| window == bytes)
    })
}

// While the tool waits for the new passphrase it has forgotten the old one, what was mistyped and what was skipped.
#[test]
fn nothing_of_a_passphrase_stays_in_memory() {
    let folder = Folder::with_drive();
    if !folder.may_look() {
        return;
    }
    let mut session = start(&folder, "add --iterations 1000 drive");
    session.answer("Passphrase that the drive has: ", "this was mistyped\n");
    session.answer("Passphrase that the drive has: ", &format!("{ONE}\n"));
    session.wait_for(NEW);
    assert!(remembers(session.process(), NEW.as_bytes()), "the prompt itself is there");
    assert!(!remembers(session.process(), b"mistyped") && !remembers(session.process(), ONE.as_bytes()));
    session.keys("\u{4}");
    assert_eq!(session.end().0, 65);

    folder.put("ring", format!("{}{ONE}, and the end", "skipped!!".repeat(1000)));
    let mut command = tool();
    let line = "add --iterations 1000 --key-file - --key-file-offset 9000 --key-file-size 14 drive";
    command.args(line.split_whitespace()).current_dir(folder.path(""));
    let mut cat = Command::new("cat").arg(folder.path("ring")).stdout(Stdio::piped()).spawn().expect("cat runs");
    let mut session = Session::start(&mut command, cat.stdout.take().map(Stdio::from));
    session.wait_for(NEW);
    cat.wait().expect("cat ends");
    assert!(!remembers(session.process(), b"skipped!!") && !remembers(session.process(), ONE.as_bytes()));
    session.keys("\u{4}");
    assert_eq!(session.end().0, 65);
}
