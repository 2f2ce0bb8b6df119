//! The tool's secrets do not reach the swap or a core dump: while it waits for a passphrase, the memory for it and the
//! stack that the engine uses are locked and left out of dumps, as the kernel says it of the tool's process.
mod common;
use common::*;
use std::process::Stdio;
use std::time::{Duration, Instant};

extern "C" {
    fn mlock(address: *const u8, length: usize) -> i32;
    fn munlock(address: *const u8, length: usize) -> i32;
}

// A mapping of the process: from where to where, whether it is the stack's upper end, and the kernel's flags.
struct Region {
    start: usize,
    end: usize,
    is_stack: bool,
    flags: Vec<String>,
}

impl Region {
    fn has(&self, flag: &str) -> bool {
        self.flags.iter().any(|found| found == flag)
    }
}

fn regions(process: u32) -> Vec<Region> {
    let mut regions: Vec<Region> = Vec::new();
    for line in std::fs::read_to_string(format!("/proc/{process}/smaps")).expect("the tool's mappings").lines() {
        let range = line.split(' ').next().and_then(|range| range.split_once('-'));
        let range = range.map(|(start, end)| (usize::from_str_radix(start, 16), usize::from_str_radix(end, 16)));
        match (range, line.strip_prefix("VmFlags:"), regions.last_mut()) {
            (Some((Ok(start), Ok(end))), _, _) => {
                regions.push(Region { start, end, is_stack: line.ends_with("[stack]"), flags: Vec::new() });
            }
            (_, Some(flags), Some(region)) => region.flags = flags.split_whitespace().map(str::to_owned).collect(),
            _ => {}
        }
    }
    regions
}

// Whether the system lets a process lock as much as the tool does: the stack, and some pages for a passphrase.
fn may_lock() -> bool {
    let memory = vec![0; mivrozh::LOCKED_STACK + 64 * 1024];
    // SAFETY: the memory is the test's.
    let locked = unsafe { mlock(memory.as_ptr(), memory.len()) == 0 && munlock(memory.as_ptr(), memory.len()) == 0 };
    if !locked {
        missing("the system does not let this user lock so much memory");
    }
    locked
}

#[test]
fn a_passphrase_and_the_engines_stack_are_locked_and_not_dumped() {
    let (folder, may_lock) = (Folder::with_drive(), may_lock());
    if !folder.may_look() {
        return;
    }
    let mut tool = tool();
    tool.args(["test", "--key-file", "-", "drive"]).current_dir(folder.path("")).stdin(Stdio::piped());
    let mut child = tool.stdout(Stdio::null()).spawn().expect("the tool runs");
    let guarded = |region: &&Region| region.has("dd") && (region.has("lo") || !may_lock);
    let (mut of_stack, mut others) = (0, 0);
    let start = Instant::now();
    while (of_stack < mivrozh::LOCKED_STACK || others == 0) && start.elapsed() < Duration::from_secs(10) {
        let regions = regions(child.id());
        // The pieces of the stack follow one another, and the uppermost has its name.
        let mut lowest = regions.iter().find(|region| region.is_stack).map_or(0, |region| region.end);
        for region in regions.iter().rev().filter(|region| region.flags.iter().any(|flag| flag == "gd")) {
            lowest = if region.end == lowest { region.start } else { lowest };
        }
        let in_stack = |region: &&Region| region.has("gd") && region.start >= lowest;
        of_stack = regions.iter().filter(guarded).filter(in_stack).map(|region| region.end - region.start).sum();
        others = regions.iter().filter(guarded).filter(|region| !in_stack(region)).count();
        std::thread::sleep(Duration::from_millis(20));
    }
    drop(child.stdin.take());
    assert_eq!(child.wait().expect("the tool ends").code(), Some(14), "an empty passphrase is refused");
    assert!(of_stack >= mivrozh::LOCKED_STACK, "{of_stack} bytes of the stack are guarded");
    assert!(others > 0, "no other memory is guarded");
}
