//! What the standard library does not have: memory as long as a drive, reads from the disk in place of the system's cache,
//! locks that qemu sees, and no dump of the process.
//! The unsafe code of the tool is here and in `terminal`, for Linux on x86-64: the binding compiles nowhere else.
use std::ffi::c_void;
use std::fs::File;
use std::io;
use std::ops::Range;
use std::os::fd::AsRawFd;

extern "C" {
    fn mmap(address: *mut c_void, length: usize, protection: i32, flags: i32, file: i32, offset: i64) -> *mut c_void;
    fn munmap(address: *mut c_void, length: usize) -> i32;
    fn madvise(address: *mut c_void, length: usize, advice: i32) -> i32;
    fn fcntl(file: i32, command: i32, ...) -> i32;
    fn posix_fadvise(file: i32, start: i64, length: i64, advice: i32) -> i32;
    fn poll(files: *mut Polled, count: u64, milliseconds: i32) -> i32;
    fn prctl(option: i32, ...) -> i32;
    fn setrlimit(resource: i32, limit: *const Limit) -> i32;
}

const PROT_READ: i32 = 1;
const PROT_WRITE: i32 = 2;
const MAP_PRIVATE: i32 = 2;
const MAP_ANONYMOUS: i32 = 0x20;
const MAP_NORESERVE: i32 = 0x4000;
const MADV_DONTNEED: i32 = 4;
const MADV_NOHUGEPAGE: i32 = 15;
const PAGE: usize = 4096;
const POSIX_FADV_DONTNEED: i32 = 4;

/// Memory as long as a drive and private to this process: no other program can change what a call of the engine reads.
/// It is zeros until something is loaded into it, and what holds nothing but zeros takes no room.
pub struct Memory {
    start: *mut c_void,
    length: usize,
}

// SAFETY: the memory belongs to this value alone, and is lent by its borrows only.
unsafe impl Send for Memory {}
// SAFETY: by a shared borrow it is only read.
unsafe impl Sync for Memory {}

impl Memory {
    pub fn zeros(length: usize) -> io::Result<Memory> {
        if length == 0 {
            return Ok(Memory { start: std::ptr::null_mut(), length });
        }
        let flags = MAP_PRIVATE | MAP_ANONYMOUS | MAP_NORESERVE;
        // SAFETY: a new mapping at an address of the system's choice takes no memory that is in use.
        let start = unsafe { mmap(std::ptr::null_mut(), length, PROT_READ | PROT_WRITE, flags, -1, 0) };
        if start as isize == -1 {
            return Err(io::Error::last_os_error());
        }
        // SAFETY: the range is the mapping's. With small pages it takes the room that is used, not 2 MiB for each touch.
        unsafe { madvise(start, length, MADV_NOHUGEPAGE) };
        Ok(Memory { start, length })
    }

    pub fn bytes(&self) -> &[u8] {
        if self.length == 0 {
            return &[];
        }
        // SAFETY: the mapping has `length` readable bytes until it is dropped; it belongs to this value, and no file
        // stands behind it, so nothing changes the bytes while they are lent.
        unsafe { std::slice::from_raw_parts(self.start.cast(), self.length) }
    }

    pub fn bytes_mut(&mut self) -> &mut [u8] {
        if self.length == 0 {
            return &mut [];
        }
        // SAFETY: as above; the bytes are writable too, and the `&mut self` lends them once.
        unsafe { std::slice::from_raw_parts_mut(self.start.cast(), self.length) }
    }

    /// Gives back the room of these bytes, in whole pages that may reach beyond them: they are zeros again. The first page,
    /// which holds the header, stays.
    pub fn forget(&mut self, bytes: Range<usize>) {
        let from = (bytes.start / PAGE * PAGE).max(PAGE);
        let to = bytes.end.min(self.length);
        if from < to {
            // SAFETY: the pages are the mapping's, whose last one may be used in part, and nothing of it is lent.
            unsafe { madvise(self.start.byte_add(from), to - from, MADV_DONTNEED) };
        }
    }
}

impl Drop for Memory {
    fn drop(&mut self) {
        if self.length != 0 {
            // SAFETY: start and length are those of the mapping, and no borrow of its bytes outlives this value.
            unsafe { munmap(self.start, self.length) };
        }
    }
}

/// Has the system forget the pages that it holds of these bytes of a file, so that the next read comes from the disk. What is
/// still on its way to the disk stays. Where the system keeps a page all the same, it is read as before.
pub fn forget_cached(file: &File, bytes: &Range<usize>) {
    let (from, to) = (bytes.start / PAGE * PAGE, bytes.end.next_multiple_of(PAGE));
    // A length of 0 would stand for all that follows.
    if bytes.is_empty() {
        return;
    }
    // SAFETY: the file is open, and the call changes none of its bytes and no memory.
    unsafe { posix_fadvise(file.as_raw_fd(), from as i64, (to - from) as i64, POSIX_FADV_DONTNEED) };
}

// `struct flock` of the C library.
#[repr(C)]
struct Lock {
    kind: i16,
    whence: i16,
    start: i64,
    length: i64,
    process: i32,
}

const F_OFD_GETLK: i32 = 36;
const F_OFD_SETLK: i32 = 37;
const F_RDLCK: i16 = 0;
const F_WRLCK: i16 = 1;
const F_UNLCK: i16 = 2;
const SEEK_SET: i16 = 0;

// qemu's places for locks (its block/file-posix.c): whoever holds a permission locks byte 100 and the permission's number, whoever
// does not share one with others byte 200 and its number. Permission 0 is to read a consistent image, 1 to write, 3 to resize.
const HELD: i64 = 100;
const NOT_SHARED: i64 = 200;
const READ: i64 = 0;
const WRITE: i64 = 1;
const RESIZE: i64 = 3;

/// Locks an open file for reading, beside other readers, by qemu's rules. Gives whether nobody stands in the way.
pub fn lock_for_reading(file: &File) -> io::Result<bool> {
    for place in [HELD + READ, NOT_SHARED + WRITE, NOT_SHARED + RESIZE] {
        if !lock(file, F_RDLCK, place, 1)? {
            return Ok(false);
        }
    }
    for place in [NOT_SHARED + READ, HELD + WRITE, HELD + RESIZE] {
        if is_locked(file, place)? {
            return Ok(false);
        }
    }
    Ok(true)
}

/// Locks an open file for writing: all of it, so also every place that qemu locks.
pub fn lock_for_writing(file: &File) -> io::Result<bool> {
    lock(file, F_WRLCK, 0, 0)
}

// A lock of the open file, of `length` bytes from `start` on, or of all that follow where that is 0.
fn lock(file: &File, kind: i16, start: i64, length: i64) -> io::Result<bool> {
    let request = Lock { kind, whence: SEEK_SET, start, length, process: 0 };
    // SAFETY: the file is open, and the request has the C library's layout.
    if unsafe { fcntl(file.as_raw_fd(), F_OFD_SETLK, &request) } == 0 {
        return Ok(true);
    }
    let error = io::Error::last_os_error();
    match error.kind() {
        io::ErrorKind::WouldBlock | io::ErrorKind::PermissionDenied => Ok(false),
        _ => Err(error),
    }
}

fn is_locked(file: &File, place: i64) -> io::Result<bool> {
    let mut request = Lock { kind: F_WRLCK, whence: SEEK_SET, start: place, length: 1, process: 0 };
    // SAFETY: the file is open, and the request has the C library's layout.
    match unsafe { fcntl(file.as_raw_fd(), F_OFD_GETLK, &mut request) } {
        0 => Ok(request.kind != F_UNLCK),
        _ => Err(io::Error::last_os_error()),
    }
}

// `struct pollfd` of the C library.
#[repr(C)]
struct Polled {
    file: i32,
    events: i16,
    returned: i16,
}

const POLLIN: i16 = 1;

/// Whether a read of the file gives something, be it the end or an error, within these milliseconds.
pub fn is_readable_within(file: &File, milliseconds: i32) -> bool {
    let mut polled = Polled { file: file.as_raw_fd(), events: POLLIN, returned: 0 };
    // SAFETY: the one element has the C library's layout. An error is left to the read.
    unsafe { poll(&mut polled, 1, milliseconds) != 0 }
}

// `struct rlimit` of the C library.
#[repr(C)]
struct Limit {
    now: u64,
    most: u64,
}

const PR_SET_DUMPABLE: i32 = 4;
const RLIMIT_CORE: i32 = 4;

/// Has the system write no memory of this process to a core file, and let no other process of its user look into it.
pub fn forbid_dumps() {
    // SAFETY: the limit has the C library's layout. Neither call can fail with these values.
    unsafe {
        prctl(PR_SET_DUMPABLE, 0u64, 0u64, 0u64, 0u64);
        setrlimit(RLIMIT_CORE, &Limit { now: 0, most: 0 });
    }
}

#[cfg(test)]
mod tests {
    use super::*;

    #[test]
    fn memory_is_zeros_and_forgets_all_but_its_first_page() {
        let mut memory = Memory::zeros(5 * PAGE + 512).expect("memory");
        assert_eq!(memory.bytes(), [0; 5 * PAGE + 512]);
        memory.bytes_mut().fill(7);
        memory.forget(100..2 * PAGE + 1);
        assert!(memory.bytes()[..PAGE].iter().all(|&byte| byte == 7), "the first page stays");
        assert!(memory.bytes()[PAGE..3 * PAGE].iter().all(|&byte| byte == 0), "whole pages, beyond the end too");
        assert!(memory.bytes()[3 * PAGE..].iter().all(|&byte| byte == 7));
        memory.forget(4 * PAGE..memory.bytes().len());
        assert!(memory.bytes()[4 * PAGE..].iter().all(|&byte| byte == 0), "the last page in part");
        assert_eq!(Memory::zeros(0).expect("no memory").bytes_mut(), []);
    }

    // Far more than the machine has: only what is touched takes room.
    #[test]
    fn memory_may_be_long() {
        let mut memory = Memory::zeros(1 << 40).expect("memory");
        memory.bytes_mut()[(1 << 40) - 1] = 7;
        assert_eq!(memory.bytes()[1 << 39], 0);
    }
}
