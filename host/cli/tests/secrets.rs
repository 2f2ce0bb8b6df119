//! No memory of the tool comes into a core file, and no other process of its user looks into it.
mod common;
use common::*;
use std::io::Write;
use std::os::unix::fs::MetadataExt;
use std::os::unix::process::{CommandExt, ExitStatusExt};
use std::path::Path;
use std::process::{Child, Command, ExitStatus, Stdio};
use std::time::{Duration, Instant};

const RLIMIT_CORE: i32 = 4;
const SIGABRT: i32 = 6;

extern "C" {
    fn setrlimit(resource: i32, limit: *const [u64; 2]) -> i32;
    fn kill(process: i32, signal: i32) -> i32;
}

// Starts a command with as much room for core files as there may be, and lets it read half of a passphrase.
fn with_half_a_passphrase(command: &mut Command) -> Child {
    // SAFETY: setrlimit may be called between fork and exec; the two numbers have the C library's layout.
    unsafe {
        command.pre_exec(|| {
            setrlimit(RLIMIT_CORE, &[u64::MAX; 2]);
            Ok(())
        });
    }
    let mut child = command.stdin(Stdio::piped()).stdout(Stdio::null()).spawn().expect("the command runs");
    child.stdin.as_mut().expect("a pipe").write_all(b"half a passphrase").expect("the pipe takes it");
    let start = Instant::now();
    while !has_read(&child) {
        assert!(start.elapsed() < Duration::from_secs(20), "it does not read");
        std::thread::sleep(Duration::from_millis(5));
    }
    child
}

// It sleeps, and has read what was given to it: some bytes by a read of its own.
fn has_read(child: &Child) -> bool {
    let of_process = |name: &str| std::fs::read_to_string(format!("/proc/{}/{name}", child.id())).unwrap_or_default();
    let reading = of_process("syscall").starts_with("0 0x0 ") || of_process("wchan").contains("pipe");
    of_process("stat").contains(") S ") && reading
}

fn aborted(mut child: Child) -> ExitStatus {
    // SAFETY: the process is a child that has not been waited for.
    assert_eq!(unsafe { kill(child.id() as i32, SIGABRT) }, 0);
    let status = child.wait().expect("it ends");
    assert_eq!(status.signal(), Some(SIGABRT));
    status
}

fn core_files(folder: &Folder) -> usize {
    let entries = folder.path("").read_dir().expect("the folder");
    entries.flatten().filter(|entry| entry.file_name().as_encoded_bytes().starts_with(b"core")).count()
}

#[test]
fn an_abort_dumps_no_core() {
    let folder = Folder::with_drive();
    if !folder.may_look() {
        return;
    }
    let control = aborted(with_half_a_passphrase(Command::new("cat").current_dir(folder.path(""))));
    if !control.core_dumped() {
        missing("this machine dumps no core of any process");
    }
    let before = core_files(&folder);
    let mut command = tool();
    command.args(["test", "--key-file", "-", "drive"]).current_dir(folder.path(""));
    let status = aborted(with_half_a_passphrase(&mut command));
    assert!(!status.core_dumped(), "the tool's memory was dumped");
    assert_eq!(core_files(&folder), before);
}

// Both ways, since a machine may hand dumps to a program and then not look at the limit.
#[test]
fn the_limit_is_zero_and_the_process_not_dumpable() {
    let folder = Folder::with_drive();
    if !folder.may_look() {
        return;
    }
    let program = folder.path("mivrozh");
    assert!(Command::new("cp").arg(env!("CARGO_BIN_EXE_mivrozh")).arg(&program).status().expect("cp runs").success());
    let mut command = tool_at(&program);
    command.args(["test", "--key-file", "-", "drive"]).current_dir(folder.path(""));
    if folder.path("drive").metadata().expect("the drive").uid() == 0 {
        command.uid(NOBODY).gid(NOBODY);
    }
    let child = with_half_a_passphrase(&mut command);
    let process = Path::new("/proc").join(child.id().to_string());
    let owner = process.join("environ").metadata().expect("the process").uid();
    assert_eq!(owner, 0, "of a process that may be dumped this belongs to its user");
    let limits = std::fs::read_to_string(process.join("limits")).expect("the process's limits");
    let core = limits.lines().find(|line| line.starts_with("Max core file size"));
    let words: Vec<&str> = core.unwrap_or_default().split_whitespace().skip(4).take(2).collect();
    assert_eq!(words, ["0", "0"], "{limits}");
    aborted(child);
}

// A process that may not be dumped still reads what a shell hands to it.
#[test]
fn a_shells_substitution_is_a_key_file() {
    let folder = Folder::with_drive();
    let program = folder.path("mivrozh");
    assert!(Command::new("cp").arg(env!("CARGO_BIN_EXE_mivrozh")).arg(&program).status().expect("cp runs").success());
    let mut command = Command::new("bash");
    command.args(["-c", "./mivrozh test --key-file <(printf 'passphrase one') drive"]).current_dir(folder.path(""));
    if folder.path("drive").metadata().expect("the drive").uid() == 0 {
        command.uid(NOBODY).gid(NOBODY);
    }
    assert_eq!(said(&mut command).accepted().out, "key slot 1 opens\n");
}
