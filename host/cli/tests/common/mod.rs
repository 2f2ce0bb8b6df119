//! What the tests of the tool share: a folder of their own, the tool run as a user runs it, small drives.
#![allow(dead_code)]
#[path = "../../../mivrozh/tests/missing/mod.rs"]
mod missing;
#[allow(unused_imports)]
pub use missing::missing;
use std::ffi::OsStr;
use std::fs;
use std::os::unix::fs::{MetadataExt, PermissionsExt};
use std::os::unix::process::{CommandExt, ExitStatusExt};
use std::path::{Path, PathBuf};
use std::process::{Command, Output, Stdio};
use std::sync::atomic::{AtomicUsize, Ordering};

/// Key areas of 40 stripes of 64 bytes: 5 sectors each, from sector 8 on every 8 sectors. The payload starts after 1 MiB.
pub const STRIPES: &str = "40";
pub const AREA_SECTORS: usize = 5;
pub const PAYLOAD_START: usize = 2048;
pub const PAYLOAD_UNITS: usize = 16;
pub const LENGTH: usize = (PAYLOAD_START + PAYLOAD_UNITS) * 512;

/// A user who is not root.
pub const NOBODY: u32 = 65534;

extern "C" {
    fn setsid() -> i32;
    fn signal(number: i32, action: usize) -> usize;
}

/// The signals that end a program at a terminal: SIGHUP, SIGINT, SIGQUIT, SIGTERM.
const ENDING: [i32; 4] = [1, 2, 3, 15];

/// What a signal does where nobody said otherwise.
const DEFAULT: usize = 0;

/// The tool, in a session of its own: the terminal of whoever runs the tests is not its terminal, nor are the signals that
/// they ignore (as under nohup) ignored by it.
pub fn tool() -> Command {
    tool_at(Path::new(env!("CARGO_BIN_EXE_mivrozh")))
}

/// A copy of the tool, likewise.
pub fn tool_at(program: &Path) -> Command {
    let mut command = Command::new(program);
    command.stdin(Stdio::null());
    // SAFETY: signal and setsid may be called between fork and exec.
    unsafe {
        command.pre_exec(|| {
            ENDING.iter().for_each(|&number| {
                signal(number, DEFAULT);
            });
            match setsid() {
                -1 => Err(std::io::Error::last_os_error()),
                _ => Ok(()),
            }
        });
    }
    command
}

/// A folder that is removed with its test.
pub struct Folder(PathBuf);

impl Folder {
    pub fn new() -> Folder {
        static COUNT: AtomicUsize = AtomicUsize::new(0);
        let number = COUNT.fetch_add(1, Ordering::Relaxed);
        let path = std::env::temp_dir().join(format!("mivrozh-test-{}-{number}", std::process::id()));
        fs::create_dir(&path).expect("a folder for the test");
        Folder(path)
    }

    pub fn path(&self, name: impl AsRef<Path>) -> PathBuf {
        self.0.join(name)
    }

    pub fn put(&self, name: &str, bytes: impl AsRef<[u8]>) -> PathBuf {
        fs::write(self.path(name), bytes).expect("a file in the test's folder");
        self.path(name)
    }

    pub fn get(&self, name: &str) -> Vec<u8> {
        fs::read(self.path(name)).expect("a file of the test's folder")
    }

    /// Runs the tool in the folder.
    pub fn run<S: AsRef<OsStr>>(&self, arguments: impl IntoIterator<Item = S>) -> Said {
        said(tool().args(arguments).current_dir(&self.0))
    }

    /// Runs the tool with the words of a line.
    pub fn line(&self, line: &str) -> Said {
        self.run(line.split_whitespace())
    }

    /// Sets the mode of a file; the empty name is the folder itself.
    pub fn mode(&self, name: &str, mode: u32) {
        fs::set_permissions(self.path(name), fs::Permissions::from_mode(mode)).expect("a mode");
    }

    /// Runs the tool with the words of a line, as a user whom the drive's mode binds. Root may do all, so it then runs as
    /// another, who may run this folder's copy of it.
    pub fn line_by_mode(&self, line: &str) -> Said {
        let program = self.path("mivrozh");
        if !program.exists() {
            // By cp: a file that this process writes cannot be run while another test is just starting a process.
            let mut copy = Command::new("cp");
            assert!(copy.arg(env!("CARGO_BIN_EXE_mivrozh")).arg(&program).status().expect("cp runs").success());
            self.mode("", 0o755);
        }
        let mut command = tool_at(&program);
        command.args(line.split_whitespace()).current_dir(&self.0);
        if self.path("drive").metadata().is_ok_and(|own| own.uid() == 0) {
            command.uid(NOBODY).gid(NOBODY);
        }
        said(&mut command)
    }

    /// Whether the owner of the folder may look into the tool that runs there: it lets nobody but root.
    pub fn may_look(&self) -> bool {
        let is_root = self.0.metadata().is_ok_and(|own| own.uid() == 0);
        if !is_root {
            missing("this user, who is not root, cannot look into the tool");
        }
        is_root
    }

    /// A folder with key files `one`, `two`, `three`, and a small drive `drive` whose slot 1 has the passphrase of `one`.
    pub fn with_drive() -> Folder {
        let folder = Folder::new();
        for name in ["one", "two", "three"] {
            folder.put(name, format!("passphrase {name}"));
        }
        folder.put("drive", pattern(LENGTH));
        folder.line(&format!("format --force --iterations 1000 --stripes {STRIPES} --key-file one drive")).accepted();
        folder
    }

    /// The exit status of a test with the key file.
    pub fn opens(&self, key_file: &str) -> bool {
        let said = self.line(&format!("test --key-file {key_file} drive"));
        assert!([0, 17].contains(&said.status), "{said:?}");
        said.status == 0
    }
}

impl Drop for Folder {
    fn drop(&mut self) {
        let _ = fs::remove_dir_all(&self.0);
    }
}

#[derive(Debug)]
pub struct Said {
    pub status: i32,
    pub out: String,
    pub err: String,
}

impl Said {
    #[track_caller]
    pub fn accepted(self) -> Said {
        assert_eq!((self.status, self.err.as_str()), (0, ""), "{}", self.out);
        self
    }

    /// It failed with this status, said so in one line that has these words, and printed nothing else.
    #[track_caller]
    pub fn failed(self, status: i32, words: &str) -> Said {
        assert_eq!(self.status, status, "{}", self.err);
        assert!(self.err.starts_with("mivrozh: ") && self.err.contains(words), "'{words}' is not in: {}", self.err);
        assert_eq!(self.err.lines().count(), 1, "{}", self.err);
        assert_eq!(self.out, "");
        self
    }

    /// It was refused with this number, and the message has the number and these words.
    #[track_caller]
    pub fn refused(self, number: i32, words: &str) -> Said {
        assert!(self.err.starts_with(&format!("mivrozh: refusal {number}")), "{}: {}", self.status, self.err);
        self.failed(number, words)
    }
}

pub fn said(command: &mut Command) -> Said {
    let output = command.output().expect("the tool runs");
    of_output(output)
}

pub fn of_output(output: Output) -> Said {
    let status = output.status.code().unwrap_or_else(|| -output.status.signal().unwrap_or(0));
    let text = |bytes: Vec<u8>| String::from_utf8_lossy(&bytes).into_owned();
    Said { status, out: text(output.stdout), err: text(output.stderr) }
}

/// Bytes that look random, the same each time.
pub fn pattern(length: usize) -> Vec<u8> {
    let mut state = 0x9E37_79B9_7F4A_7C15u64;
    let mut next = || {
        state ^= state << 13;
        state ^= state >> 7;
        state ^= state << 17;
        (state >> 24) as u8
    };
    (0..length).map(|_| next()).collect()
}

/// The sectors in which two images differ.
pub fn changed_sectors(before: &[u8], after: &[u8]) -> Vec<usize> {
    assert_eq!(before.len(), after.len());
    let pairs = before.chunks(512).zip(after.chunks(512));
    pairs.enumerate().filter(|(_, (old, new))| old != new).map(|(sector, _)| sector).collect()
}

/// The sectors of a slot's area.
pub fn area(slot: usize) -> std::ops::Range<usize> {
    8 * slot..8 * slot + AREA_SECTORS
}

/// The library of this C source beside the tests, to be preloaded into the tool.
pub fn preloaded(source: &str) -> PathBuf {
    let library = PathBuf::from(env!("CARGO_TARGET_TMPDIR")).join(format!("{source}-{}.so", std::process::id()));
    let mut gcc = Command::new("gcc");
    gcc.args(["-Wall", "-Wextra", "-Werror", "-O1", "-fPIC", "-shared", "-o"]).arg(&library);
    gcc.arg(Path::new(env!("CARGO_MANIFEST_DIR")).join("tests").join(source));
    assert!(gcc.status().expect("gcc runs").success());
    library
}
