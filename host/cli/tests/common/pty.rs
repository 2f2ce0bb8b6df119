//! The tool at a terminal: a pseudo-terminal whose other end the test holds.
#![allow(dead_code)]
use crate::common::{tool, tool_at, Folder};
use std::ffi::{c_char, CStr, CString};
use std::fs::{File, OpenOptions};
use std::io::{Read, Write};
use std::os::fd::{AsRawFd, FromRawFd};
use std::os::unix::fs::OpenOptionsExt;
use std::os::unix::process::{CommandExt, ExitStatusExt};
use std::path::{Path, PathBuf};
use std::process::{Child, Command, Stdio};
use std::sync::mpsc::{channel, Receiver};
use std::time::{Duration, Instant};

extern "C" {
    fn posix_openpt(flags: i32) -> i32;
    fn grantpt(terminal: i32) -> i32;
    fn unlockpt(terminal: i32) -> i32;
    fn ptsname_r(terminal: i32, name: *mut c_char, length: usize) -> i32;
    fn tcgetattr(file: i32, settings: *mut Settings) -> i32;
    fn tcsetattr(file: i32, when: i32, settings: *const Settings) -> i32;
    fn open(path: *const c_char, flags: i32, ...) -> i32;
    fn kill(process: i32, number: i32) -> i32;
    fn ioctl(file: i32, request: u64, ...) -> i32;
}

const READ_WRITE: i32 = 2;
const NO_CONTROL: i32 = 0o400;
const CLOSE_ON_EXEC: i32 = 0o2000000;
const PATIENCE: Duration = Duration::from_secs(20);

/// In the local modes.
pub const ECHO: u32 = 0o10;
pub const ICANON: u32 = 0o2;
/// Among the characters.
pub const VERASE: usize = 2;
pub const VKILL: usize = 3;

/// A terminal's settings, as the C library has them.
#[repr(C)]
#[derive(Clone, Copy, Debug, Default, PartialEq)]
pub struct Settings {
    pub input: u32,
    pub output: u32,
    pub control: u32,
    pub local: u32,
    pub line: u8,
    pub characters: [u8; 32],
    pub speeds: [u32; 2],
}

/// A pseudo-terminal.
pub struct Terminal {
    keys: File,
    // The tool's side, kept open so that the terminal is there after the tool has ended.
    own: File,
    name: CString,
}

impl Terminal {
    pub fn new() -> Terminal {
        // SAFETY: the file is new and owned by nobody else; the name's buffer has the length that is given.
        let (keys, name) = unsafe {
            let terminal = posix_openpt(READ_WRITE | NO_CONTROL | CLOSE_ON_EXEC);
            assert!(terminal >= 0 && grantpt(terminal) == 0 && unlockpt(terminal) == 0, "a pseudo-terminal");
            let mut name = [0; 64];
            assert_eq!(ptsname_r(terminal, name.as_mut_ptr(), name.len()), 0);
            (File::from_raw_fd(terminal), CStr::from_ptr(name.as_ptr()).to_owned())
        };
        let path = PathBuf::from(name.to_str().expect("a path in UTF-8"));
        let own = OpenOptions::new().read(true).write(true).custom_flags(NO_CONTROL).open(path).expect("the terminal");
        Terminal { keys, own, name }
    }

    pub fn settings(&self) -> Settings {
        let mut settings = Settings::default();
        // SAFETY: the settings have the C library's layout.
        assert_eq!(unsafe { tcgetattr(self.own.as_raw_fd(), &mut settings) }, 0);
        settings
    }

    /// Changes the settings, as stty does.
    pub fn set(&self, change: impl FnOnce(&mut Settings)) {
        let mut settings = self.settings();
        change(&mut settings);
        // SAFETY: the settings have the C library's layout.
        assert_eq!(unsafe { tcsetattr(self.own.as_raw_fd(), 0, &settings) }, 0);
    }

    /// Says how many columns the terminal has: it does not say so by itself.
    pub fn set_columns(&self, columns: u16) {
        const TIOCSWINSZ: u64 = 0x5414;
        let size = [24, columns, 0, 0];
        // SAFETY: rows, columns and both in pixels are `struct winsize` of the C library.
        assert_eq!(unsafe { ioctl(self.own.as_raw_fd(), TIOCSWINSZ, &size) }, 0);
    }
}

/// The tool, running at a terminal of its own.
pub struct Session {
    child: Child,
    terminal: Terminal,
    before: Settings,
    shown: Receiver<u8>,
    seen: String,
}

impl Session {
    /// Starts a command, the leader of a session, with the terminal as its controlling one, and for standard input, output
    /// and error where the command does not say otherwise.
    pub fn start(command: &mut Command, input: Option<Stdio>) -> Session {
        Session::start_at(Terminal::new(), command, input)
    }

    /// Likewise, at a terminal with settings of its own.
    pub fn start_at(terminal: Terminal, command: &mut Command, input: Option<Stdio>) -> Session {
        let end = || Stdio::from(terminal.own.try_clone().expect("a file"));
        command.stdin(input.unwrap_or_else(end)).stdout(end()).stderr(end());
        let name = terminal.name.clone();
        // SAFETY: open may be called between fork and exec. The first terminal that the leader of a session opens controls it.
        unsafe {
            command.pre_exec(move || match open(name.as_ptr(), READ_WRITE | CLOSE_ON_EXEC) {
                -1 => Err(std::io::Error::last_os_error()),
                _ => Ok(()),
            });
        }
        let before = terminal.settings();
        let child = command.spawn().expect("the tool runs");
        let shown = watch(terminal.keys.try_clone().expect("a file"));
        Session { child, terminal, before, shown, seen: String::new() }
    }

    /// Waits until the terminal shows these words, after what was waited for before. Gives what it has shown meanwhile.
    #[track_caller]
    pub fn wait_for(&mut self, words: &str) -> String {
        let start = self.seen.len();
        while !self.seen[start..].ends_with(words) {
            match self.shown.recv_timeout(PATIENCE) {
                Ok(byte) => self.seen.push(char::from(byte)),
                Err(_) => panic!("'{words}' does not come; the terminal shows: {}", self.seen),
            }
        }
        self.seen[start..].to_owned()
    }

    pub fn keys(&self, keys: &str) {
        (&self.terminal.keys).write_all(keys.as_bytes()).expect("the terminal takes keys");
    }

    /// Waits for the prompt, then answers it.
    #[track_caller]
    pub fn answer(&mut self, prompt: &str, keys: &str) {
        self.wait_for(prompt);
        self.keys(keys);
    }

    pub fn process(&self) -> u32 {
        self.child.id()
    }

    /// Sends a signal from outside.
    pub fn signal(&self, number: i32) {
        signal(self.process(), number);
    }

    /// Does the terminal show what is typed?
    pub fn echoes(&self) -> bool {
        self.terminal.settings().local & ECHO != 0
    }

    /// The exit status, or the signal's number below 0, and all that the terminal has shown. The terminal must have its
    /// settings again.
    #[track_caller]
    pub fn end(mut self) -> (i32, String) {
        let status = self.ended();
        let status = status.code().unwrap_or_else(|| -status.signal().unwrap_or(0));
        // Nobody puts them back after the tool has ended; but a shell may end a moment before the tool in it.
        let start = Instant::now();
        while self.terminal.settings() != self.before && start.elapsed() < Duration::from_secs(2) {
            std::thread::sleep(Duration::from_millis(5));
        }
        assert!(self.echoes(), "the terminal's echo is off");
        assert_eq!(self.terminal.settings(), self.before, "the terminal's settings are not as they were");
        while let Ok(byte) = self.shown.recv_timeout(Duration::from_millis(100)) {
            self.seen.push(char::from(byte));
        }
        (status, self.seen)
    }

    // Waits for the end, but not for ever.
    #[track_caller]
    fn ended(&mut self) -> std::process::ExitStatus {
        let start = Instant::now();
        while start.elapsed() < PATIENCE {
            if let Some(status) = self.child.try_wait().expect("the tool ends") {
                return status;
            }
            self.seen.extend(self.shown.recv_timeout(Duration::from_millis(5)).ok().map(char::from));
        }
        self.signal(9);
        panic!("the tool does not end; the terminal shows: {}", self.seen);
    }
}

/// Sends a signal to a process.
pub fn signal(process: u32, number: i32) {
    // SAFETY: the process is one of the test's.
    assert_eq!(unsafe { kill(process as i32, number) }, 0, "the process is there");
}

// What the terminal shows, byte by byte.
fn watch(mut terminal: File) -> Receiver<u8> {
    let (sender, receiver) = channel();
    std::thread::spawn(move || {
        let mut byte = [0];
        while terminal.read(&mut byte).is_ok_and(|count| count == 1) && sender.send(byte[0]).is_ok() {}
    });
    receiver
}

/// The tool in the folder, given the words of a line.
pub fn command(folder: &Folder, line: &str) -> Command {
    let mut command = tool();
    command.args(line.split_whitespace()).current_dir(folder.path(""));
    command
}

/// The same at a terminal of its own.
pub fn start(folder: &Folder, line: &str) -> Session {
    Session::start(&mut command(folder, line), None)
}

/// A line of the shell at a terminal, in which $TOOL is the tool.
pub fn shell(folder: &Folder, line: &str) -> Session {
    let mut command = tool_at(Path::new("bash"));
    command.args(["-c", line]).env("TOOL", env!("CARGO_BIN_EXE_mivrozh")).current_dir(folder.path(""));
    Session::start(&mut command, None)
}
