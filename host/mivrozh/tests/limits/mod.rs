//! The limit on locked memory, which the tests lower.
extern "C" {
    fn getrlimit(resource: i32, limit: *mut [u64; 2]) -> i32;
    fn setrlimit(resource: i32, limit: *const [u64; 2]) -> i32;
    fn syscall(number: i64, ...) -> i64;
}

const RLIMIT_MEMLOCK: i32 = 8;
const CAPGET: i64 = 125;
const CAPSET: i64 = 126;
const CAP_IPC_LOCK: u32 = 14;

/// The limit of this process, and the most that it may be.
pub fn limit() -> [u64; 2] {
    let mut limit = [0; 2];
    // SAFETY: `struct rlimit` has two numbers of 64 bits.
    assert_eq!(unsafe { getrlimit(RLIMIT_MEMLOCK, &mut limit) }, 0);
    limit
}

pub fn set_limit(limit: [u64; 2]) {
    // SAFETY: as above.
    assert_eq!(unsafe { setrlimit(RLIMIT_MEMLOCK, &limit) }, 0);
}

/// Takes from this thread the right to lock beyond the limit, and makes that so many bytes.
pub fn hold_to(bytes: u64) {
    let (header, mut sets) = ([0x2008_0522u32, 0], [0u32; 6]);
    // SAFETY: version 3 of the capabilities has a header of two numbers and two sets of three. A thread's own
    // capabilities are changed, and no other's.
    unsafe {
        assert_eq!(syscall(CAPGET, header.as_ptr(), sets.as_mut_ptr()), 0);
        sets[0] &= !(1 << CAP_IPC_LOCK);
        assert_eq!(syscall(CAPSET, header.as_ptr(), sets.as_ptr()), 0);
    }
    let most = limit()[1];
    set_limit([bytes.min(most), most]);
}
