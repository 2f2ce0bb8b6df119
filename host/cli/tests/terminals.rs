//! The terminal itself: signals at a prompt leave it as it was, and its own keys mend what is typed.
mod common;
#[path = "common/pty.rs"]
mod pty;
use common::*;
use pty::{command, shell, signal, start, Session, Terminal, VERASE, VKILL};

const PROMPT: &str = "Passphrase: ";
const RIGHT: &str = "passphrase one\n";
const CONTROL_C: &str = "\u{3}";
const CONTROL_D: &str = "\u{4}";
const CONTROL_U: &str = "\u{15}";
const CONTROL_W: &str = "\u{17}";
const CONTROL_Z: &str = "\u{1a}";
const CONTROL_BACKSLASH: &str = "\u{1c}";
const ERASE: &str = "\u{7f}";

const SIGHUP: i32 = 1;
const SIGINT: i32 = 2;
const SIGQUIT: i32 = 3;
const SIGTERM: i32 = 15;
const SIGCONT: i32 = 18;
const SIGSTOP: i32 = 19;
const SIGTSTP: u32 = 20;

// The number that the terminal shows next, after these words and in brackets.
fn number(session: &mut Session, words: &str) -> u32 {
    session.wait_for(words);
    let text = session.wait_for("]");
    text.rsplit('[').next().and_then(|text| text.trim_end_matches(']').parse().ok()).expect("a number")
}

// The passphrase is typed at the prompt, and opens the drive.
#[track_caller]
fn opens(mut session: Session) -> String {
    assert!(!session.echoes(), "the passphrase would be shown");
    session.keys(RIGHT);
    session.wait_for("key slot 1 opens");
    let (status, shown) = session.end();
    assert_eq!(status, 0, "{shown}");
    assert!(!shown.contains("passphrase one"), "{shown}");
    shown
}

// The shell reads a line, which is shown, and continues the tool, which asks a second time.
fn asks_again(mut session: Session) {
    session.keys("shown\n");
    session.wait_for("read <shown>");
    session.wait_for(PROMPT);
    let shown = opens(session);
    assert_eq!(shown.matches(PROMPT).count(), 2, "{shown}");
}

#[test]
fn a_signal_from_outside_leaves_the_terminal_as_it_was() {
    let folder = Folder::with_drive();
    let before = folder.get("drive");
    for number in [SIGHUP, SIGINT, SIGQUIT, SIGTERM] {
        for line in ["test drive", "change drive", "add --key-file one drive"] {
            let mut session = start(&folder, line);
            session.wait_for(": ");
            assert!(!session.echoes());
            session.keys("half");
            session.signal(number);
            let (status, shown) = session.end();
            assert_eq!(status, -number, "{line}: {shown}");
            assert!(shown.ends_with(": \r\n"), "{shown:?}");
        }
    }
    assert_eq!(folder.get("drive"), before);
}

// Nothing waits for the second signal, and the first is not lost.
#[test]
fn many_signals_at_once() {
    let folder = Folder::with_drive();
    for _ in 0..20 {
        let mut session = start(&folder, "test drive");
        session.wait_for(PROMPT);
        for number in [SIGTERM, SIGHUP, SIGTERM, SIGINT, SIGQUIT, SIGINT] {
            session.signal(number);
        }
        let (status, shown) = session.end();
        assert!([-SIGHUP, -SIGINT, -SIGQUIT, -SIGTERM].contains(&status), "{status}: {shown}");
    }
}

#[test]
fn the_keys_for_an_interrupt_and_for_quitting() {
    let folder = Folder::with_drive();
    let before = folder.get("drive");
    for (key, number) in [(CONTROL_C, SIGINT), (CONTROL_BACKSLASH, SIGQUIT)] {
        let mut session = start(&folder, "change drive");
        session.answer("Old passphrase: ", &format!("half{key}"));
        let (status, shown) = session.end();
        assert_eq!(status, -number, "{shown}");
        assert!(!shown.contains("half"), "{shown}");
    }
    assert_eq!(folder.get("drive"), before);
}

#[test]
fn an_interrupt_stops_a_loop_of_the_shell() {
    let folder = Folder::with_drive();
    let mut session = shell(&folder, r#"for i in 1 2 3; do "$TOOL" test drive; done; echo went on"#);
    session.answer(PROMPT, CONTROL_C);
    let (status, shown) = session.end();
    assert_eq!(status, -SIGINT, "{shown}");
    assert_eq!(shown.matches(PROMPT).count(), 1, "{shown}");
    assert!(!shown.contains("went on"), "{shown}");
}

#[test]
fn the_shell_sees_status_130() {
    let folder = Folder::with_drive();
    let mut session = shell(&folder, r#"trap : INT; "$TOOL" test drive; echo "status [$?]""#);
    session.answer(PROMPT, CONTROL_C);
    assert_eq!(number(&mut session, "status "), 130);
    session.end();
}

// As under nohup.
#[test]
fn an_ignored_signal_stays_ignored() {
    let folder = Folder::with_drive();
    let mut session = shell(&folder, r#"trap "" HUP INT QUIT TERM TSTP; exec "$TOOL" test drive"#);
    session.wait_for(PROMPT);
    for number in [SIGHUP, SIGINT, SIGQUIT, SIGTERM] {
        session.signal(number);
    }
    session.keys(&format!("half{CONTROL_Z}{CONTROL_C}"));
    let shown = opens(session);
    assert_eq!(shown.matches(PROMPT).count(), 1, "{shown}");
}

// What was typed before the signal is no input of the shell's.
#[test]
fn half_a_passphrase_is_not_left_for_the_shell() {
    let folder = Folder::with_drive();
    let line = r#"(echo "tool [$BASHPID]"; exec "$TOOL" test drive); read -r line; echo "read <$line>""#;
    let mut session = shell(&folder, line);
    let tool = number(&mut session, "tool ");
    session.answer(PROMPT, "half");
    signal(tool, SIGTERM);
    session.wait_for("Terminated");
    assert!(session.echoes());
    session.keys("another\n");
    session.wait_for("read <another>");
    session.end();
}

#[test]
fn a_stop_and_its_continuation() {
    let folder = Folder::with_drive();
    let line = r#"set -m; "$TOOL" test drive; echo "stopped [$?]"; read -r line; echo "read <$line>"; fg"#;
    let mut session = shell(&folder, line);
    session.answer(PROMPT, &format!("half{CONTROL_Z}"));
    assert_eq!(number(&mut session, "stopped "), 128 + SIGTSTP);
    assert!(session.echoes(), "the terminal of a stopped tool is not as it was");
    asks_again(session);
}

// In the background the shell's settings are not touched; the prompt comes once the tool is in the foreground.
#[test]
fn a_stopped_tool_in_the_background() {
    let folder = Folder::with_drive();
    let wait = r#"until [ "$(jobs -s)" ]; do sleep 0.02; done"#;
    let line = format!(
        r#"set -m; "$TOOL" test drive; bg; sleep 0.2; {wait}; echo "waits [$?]"; read -r line; echo "read <$line>"; fg"#
    );
    let mut session = shell(&folder, &line);
    session.answer(PROMPT, CONTROL_Z);
    assert_eq!(number(&mut session, "waits "), 0);
    assert!(session.echoes());
    asks_again(session);
}

// The settings that a shell has for itself are not those that come back at the end.
#[test]
fn a_tool_that_starts_in_the_background() {
    let folder = Folder::with_drive();
    let wait = r#"until [ "$(jobs -s)" ]; do sleep 0.02; done"#;
    let line = format!(r#"set -m; stty -echo -icanon; "$TOOL" test drive & {wait}; stty echo icanon; fg"#);
    let mut session = shell(&folder, &line);
    session.wait_for(PROMPT);
    let shown = opens(session);
    assert_eq!(shown.matches(PROMPT).count(), 1, "{shown}");
}

// A tool that nobody continues does not stop, and one that is stopped by force asks again.
#[test]
fn stops_without_a_shell() {
    let folder = Folder::with_drive();
    let mut session = start(&folder, "test drive");
    session.answer(PROMPT, &format!("half{CONTROL_Z}"));
    session.wait_for(PROMPT);
    session.keys("half");
    session.signal(SIGSTOP);
    session.signal(SIGCONT);
    session.wait_for(PROMPT);
    opens(session);
}

// A stopped tool ends by a signal once it is continued, in the background too.
#[test]
fn a_signal_for_a_stopped_tool() {
    let folder = Folder::with_drive();
    let line = r#"set -m; "$TOOL" test drive; kill -TERM %1; kill -CONT %1; wait %1; echo "status [$?]""#;
    let mut session = shell(&folder, line);
    session.answer(PROMPT, CONTROL_Z);
    assert_eq!(number(&mut session, "status "), 128 + SIGTERM as u32);
    session.end();
}

// One that was stopped by force could not put the terminal back, but the shell has its own settings there by now.
#[test]
fn a_signal_for_a_tool_in_the_background() {
    let folder = Folder::with_drive();
    let line = r#"set -m; before=$(stty -g); (echo "tool [$BASHPID]"; exec "$TOOL" test drive); stty "$before"; stty -echoe
        kill -TERM %1; kill -CONT %1; wait %1; echo "status [$?]"; stty -a | grep -o -e -echoe; stty "$before""#;
    let mut session = shell(&folder, line);
    let tool = number(&mut session, "tool ");
    session.wait_for(PROMPT);
    signal(tool, SIGSTOP);
    assert_eq!(number(&mut session, "status "), 128 + SIGTERM as u32);
    session.wait_for("-echoe\r\n");
    session.end();
}

// At the beginning of a line it stops the tool, in a line it ends the line.
#[test]
fn the_end_of_the_input() {
    let folder = Folder::with_drive();
    let before = folder.get("drive");
    let mut session = start(&folder, "change drive");
    session.answer("Old passphrase: ", CONTROL_D);
    let (status, shown) = session.end();
    assert_eq!(status, 65, "{shown}");
    assert!(shown.contains("stopped at the prompt; nothing was changed"), "{shown}");
    assert_eq!(folder.get("drive"), before);
    let mut session = start(&folder, "test drive");
    session.answer(PROMPT, &format!("passphrase one{CONTROL_D}"));
    let (status, shown) = session.end();
    assert_eq!(status, 0, "{shown}");
}

#[test]
fn a_typed_passphrase_can_be_mended() {
    let folder = Folder::with_drive();
    for keys in [
        format!("all wrong{CONTROL_U}passphrase one\r"),
        format!("passphrase wrong{CONTROL_W}one\n"),
        format!("wrong words{CONTROL_W}{CONTROL_W}passphrase one\n"),
        format!("passphrase onf{ERASE}e\n"),
        format!("passphrase on\u{e4}{ERASE}e\n"),
        format!("passphrase on\u{20ac}\u{1f511}{ERASE}{ERASE}e\n"),
        format!("{ERASE}{CONTROL_W}{CONTROL_U}passphrase one\n"),
    ] {
        let mut session = start(&folder, "test drive");
        session.answer(PROMPT, &keys);
        session.wait_for("\r\n");
        let (status, shown) = session.end();
        assert_eq!(status, 0, "{keys:?}: {shown}");
    }
}

#[test]
fn the_terminal_has_its_own_keys() {
    let folder = Folder::with_drive();
    let terminal = Terminal::new();
    terminal.set(|settings| {
        settings.characters[VERASE] = 8;
        settings.characters[VKILL] = 24;
    });
    let mut session = Session::start_at(terminal, &mut command(&folder, "test drive"), None);
    session.answer(PROMPT, "all wrong\u{18}passphrase onf\u{8}e\n");
    session.wait_for("key slot 1 opens");
    let (status, shown) = session.end();
    assert_eq!(status, 0, "{shown}");

    // What is an erase elsewhere is a byte here: in an existing passphrase it counts.
    folder.put("bytes", "tab\tdelete\u{7f}end");
    folder.line("add --iterations 1000 --key-file one --new-key-file bytes drive").accepted();
    let terminal = Terminal::new();
    terminal.set(|settings| settings.characters[VERASE] = 8);
    let mut session = Session::start_at(terminal, &mut command(&folder, "test drive"), None);
    session.answer(PROMPT, "tab\tdelete\u{7f}end\n");
    session.wait_for("key slot 2 opens");
    assert_eq!(session.end().0, 0);
}
