//! Where secrets stand: in memory that is locked and left out of core dumps, as the kernel says it of this process. A
//! lock that is refused is no failure.
mod limits;
mod missing;
use missing::missing;
use mivrozh::{Drive, FormatInput, Opened, Profile, Secret, SlotInput};
use std::sync::Mutex;

extern "C" {
    fn mlock(address: *const u8, length: usize) -> i32;
    fn munlock(address: *const u8, length: usize) -> i32;
}

const PAGE: usize = 4096;

// The limit belongs to the process, so the tests run one after the other.
static ALONE: Mutex<()> = Mutex::new(());

// The kernel's flags of the mapping that this address lies in: "lo" is locked, "dd" not dumped.
fn flags_of(address: *const u8) -> Vec<String> {
    let maps = std::fs::read_to_string("/proc/self/smaps").expect("the process's mappings");
    let mut inside = false;
    for line in maps.lines() {
        let range = line.split(' ').next().and_then(|range| range.split_once('-'));
        let range = range.map(|(start, end)| (usize::from_str_radix(start, 16), usize::from_str_radix(end, 16)));
        if let Some((Ok(start), Ok(end))) = range {
            inside = (start..end).contains(&(address as usize));
        }
        if let (true, Some(flags)) = (inside, line.strip_prefix("VmFlags:")) {
            return flags.split_whitespace().map(str::to_owned).collect();
        }
    }
    panic!("{address:?} is in no mapping");
}

fn has(flags: &[String], flag: &str) -> bool {
    flags.iter().any(|found| found == flag)
}

// Whether the system lets this process lock so many bytes more. The test asks with memory of its own.
fn may_lock(length: usize) -> bool {
    let memory = vec![0; length + PAGE];
    let start = memory[memory.as_ptr().align_offset(PAGE)..].as_ptr();
    // SAFETY: the memory is the test's.
    let locked = unsafe { mlock(start, length) } == 0;
    // SAFETY: as above.
    unsafe { munlock(start, length) };
    locked
}

// The same; where it is not so, the test cannot see that a secret is locked.
fn lets_lock(length: usize) -> bool {
    let locked = may_lock(length);
    if !locked {
        missing(&format!("the system does not let this user lock {length} bytes"));
    }
    locked
}

// In a thread that has no right to lock beyond the limit, and with a limit of so many bytes.
fn with_limit(bytes: u64, work: impl FnOnce() + Send) {
    let before = limits::limit();
    let thread = || {
        limits::hold_to(bytes);
        work();
    };
    std::thread::scope(|scope| scope.spawn(thread).join().expect("the thread ends well"));
    limits::set_limit(before);
}

// What an opening of a new drive gives.
fn opened() -> Opened {
    let mut image = vec![0; 1 << 20];
    let (key, one, salt) = (Secret::from(vec![7; 64]), Secret::from(&b"one"[..]), [9; 32]);
    let mut drive = Drive::over(&mut image[..]);
    drive
        .format(&FormatInput::new(Profile::Key512, &key, &salt, 1000, &"u".repeat(36)).stripes(1))
        .result
        .expect("a drive");
    let _ =
        drive.add(1, &key, &SlotInput::new(&one, &salt, 1000, &[]), &mut [0; 3 * 516]).result.expect("a passphrase");
    let opened = drive.open(&one).result.expect("slot 1 opens");
    assert_eq!(opened.key.expose(), key.expose());
    opened
}

#[test]
fn a_secret_is_locked_and_left_out_of_dumps() {
    let _alone = ALONE.lock().unwrap_or_else(|poisoned| poisoned.into_inner());
    for length in [1, 64, 3 * PAGE + 1] {
        let allowed = lets_lock(length.next_multiple_of(PAGE));
        let mut made = Secret::zeroed(length);
        made.expose_mut()[length - 1] = 1;
        for secret in [made, Secret::from(vec![1; length]), Secret::from(&vec![1; length][..])] {
            for at in [0, length - 1] {
                let flags = flags_of(&secret.expose()[at]);
                assert!(has(&flags, "dd"), "byte {at} of {length}: {flags:?}");
                assert!(has(&flags, "lo") || !allowed, "byte {at} of {length}: {flags:?}");
            }
        }
    }
    // The test sees the difference.
    let (plain, flags) = (vec![1u8; 64], flags_of);
    assert!(!has(&flags(plain.as_ptr()), "dd") && !has(&flags(plain.as_ptr()), "lo"));
}

#[test]
fn an_opened_key_is_locked_and_left_out_of_dumps() {
    let _alone = ALONE.lock().unwrap_or_else(|poisoned| poisoned.into_inner());
    let opened = opened();
    let flags = flags_of(opened.key.expose().as_ptr());
    assert!(has(&flags, "dd") && (has(&flags, "lo") || !lets_lock(PAGE)), "{flags:?}");
}

#[test]
fn a_refused_lock_is_no_failure() {
    let _alone = ALONE.lock().unwrap_or_else(|poisoned| poisoned.into_inner());
    with_limit(0, || {
        assert!(!may_lock(PAGE), "nothing may be locked");
        let secret = Secret::from(vec![1; 64]);
        let flags = flags_of(secret.expose().as_ptr());
        assert!(!has(&flags, "lo") && has(&flags, "dd"), "{flags:?}");
        mivrozh::lock_stack();
        opened();
    });
    with_limit(16 * PAGE as u64, || {
        mivrozh::lock_stack();
        let (large, small) = (Secret::from(vec![1; 64 * PAGE]), Secret::from(vec![1; 64]));
        assert!(!has(&flags_of(large.expose().as_ptr()), "lo"));
        assert_eq!(has(&flags_of(small.expose().as_ptr()), "lo"), may_lock(PAGE));
        assert_eq!((large.len(), small.len()), (64 * PAGE, 64));
    });
}

#[test]
fn a_secret_of_no_bytes_has_no_memory() {
    let (mut empty, from) = (Secret::zeroed(0), Secret::from(Vec::new()));
    assert!(empty.is_empty() && empty.expose().is_empty() && empty.expose_mut().is_empty() && from.is_empty());
}

// Threads share keys.
#[test]
fn a_secret_is_shared_between_threads() {
    let key = Secret::from(vec![7; 64]);
    let sums = std::thread::scope(|scope| {
        let sum = || key.expose().iter().map(|&byte| u32::from(byte)).sum::<u32>();
        [scope.spawn(sum), scope.spawn(sum)].map(|thread| thread.join().expect("a sum"))
    });
    assert_eq!(sums, [448; 2]);
    std::thread::spawn(move || drop(key)).join().expect("a secret is dropped by another thread");
}

// The stack below the caller, from its next page on to the depth that a call of the engine and its wiping have.
#[test]
fn the_stack_of_a_call_is_locked_and_left_out_of_dumps() {
    let _alone = ALONE.lock().unwrap_or_else(|poisoned| poisoned.into_inner());
    let thread = || {
        let here = 0u8;
        let here = std::hint::black_box(&raw const here);
        let depths = [PAGE, mivrozh::raw::WIPED_STACK, mivrozh::LOCKED_STACK - PAGE];
        let flags = |depth: &usize| flags_of(here.wrapping_sub(*depth));
        assert!(depths.iter().all(|depth| !has(&flags(depth), "lo") && !has(&flags(depth), "dd")));
        let allowed = lets_lock(mivrozh::LOCKED_STACK + PAGE);
        mivrozh::lock_stack();
        for depth in depths {
            let flags = flags(&depth);
            assert!(has(&flags, "dd") && (has(&flags, "lo") || !allowed), "{depth} below: {flags:?}");
        }
        opened();
    };
    // The C library gives the stack of a thread that has ended to a later one, locked as it is. None was as large as this.
    let large = std::thread::Builder::new().stack_size(32 * 1024 * 1024);
    large.spawn(thread).expect("a thread starts").join().expect("it ends well");
}
