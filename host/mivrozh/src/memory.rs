//! Memory for secrets: pages of their own, locked where the system allows it, left out of core dumps, and wiped before
//! they are given back; and the stack, likewise locked. Unsafe code, for Linux on x86-64.
use crate::raw::{wipe, WIPED_STACK};
use std::alloc::{handle_alloc_error, Layout};
use std::ffi::c_void;
use std::mem::MaybeUninit;
use std::ptr::NonNull;

extern "C" {
    fn mmap(address: *mut c_void, length: usize, protection: i32, flags: i32, file: i32, offset: i64) -> *mut c_void;
    fn munmap(address: *mut c_void, length: usize) -> i32;
    fn mlock(address: *const c_void, length: usize) -> i32;
    fn madvise(address: *mut c_void, length: usize, advice: i32) -> i32;
}

const PAGE: usize = 4096;
const PROT_READ: i32 = 1;
const PROT_WRITE: i32 = 2;
const MAP_PRIVATE: i32 = 2;
const MAP_ANONYMOUS: i32 = 0x20;
const MADV_DONTDUMP: i32 = 16;

/// Bytes in pages that nothing else uses.
pub struct Pages {
    start: NonNull<u8>,
    length: usize,
}

// SAFETY: the pages belong to this value alone. They are read through `&self` and written through `&mut self` only, so
// another thread may have the value, and many may read it.
unsafe impl Send for Pages {}
// SAFETY: as above.
unsafe impl Sync for Pages {}

impl Pages {
    /// `length` zero bytes; no page where that is 0. Memory that the system does not have ends the program, as a
    /// vector's does.
    pub fn zeroed(length: usize) -> Pages {
        if length == 0 {
            return Pages { start: NonNull::dangling(), length };
        }
        let Ok(layout) = Layout::from_size_align(length, PAGE) else { panic!("a secret of {length} bytes") };
        let flags = MAP_PRIVATE | MAP_ANONYMOUS;
        // SAFETY: a new mapping at an address of the system's choice takes no memory that is in use.
        let start = unsafe { mmap(std::ptr::null_mut(), length, PROT_READ | PROT_WRITE, flags, -1, 0) };
        if start as isize == -1 {
            handle_alloc_error(layout);
        }
        // SAFETY: these are the pages that were just mapped, to the end of the last.
        unsafe { protect(start, length.next_multiple_of(PAGE)) };
        match NonNull::new(start.cast()) {
            Some(start) => Pages { start, length },
            None => handle_alloc_error(layout),
        }
    }

    pub fn bytes(&self) -> &[u8] {
        // SAFETY: the mapping has `length` readable bytes until this is dropped; where that is 0 the pointer is aligned
        // and not null, and nothing is read.
        unsafe { std::slice::from_raw_parts(self.start.as_ptr(), self.length) }
    }

    pub fn bytes_mut(&mut self) -> &mut [u8] {
        // SAFETY: the mapping has `length` readable and writable bytes until this is dropped, and `&mut self` lends
        // them once.
        unsafe { std::slice::from_raw_parts_mut(self.start.as_ptr(), self.length) }
    }
}

impl Drop for Pages {
    fn drop(&mut self) {
        wipe(self.bytes_mut());
        if self.length != 0 {
            // SAFETY: start and length are those of the mapping, and no borrow of its bytes outlives this value.
            unsafe { munmap(self.start.as_ptr().cast(), self.length) };
        }
    }
}

// Asks that pages be kept in memory and out of core dumps. What the system does not allow is left: a limit on locked
// memory is no reason to refuse to work.
//
// SAFETY: the caller owns the whole pages from `start` on. Neither call changes a byte of them.
unsafe fn protect(start: *mut c_void, length: usize) {
    mlock(start, length);
    madvise(start, length, MADV_DONTDUMP);
}

/// How many bytes of the stack, below its caller, [`lock_stack`] locks: what is wiped after a call of the engine, and
/// 16 KiB for the frames in between.
pub const LOCKED_STACK: usize = WIPED_STACK + 16 * 1024;

// How much more of the stack is touched than is locked. The lowest piece of a program's first stack grows, and what it
// grows by is locked as it is, and counts: so that piece must not be the locked one, or a program at its limit of
// locked memory would end where its stack grows.
const UNLOCKED_STACK: usize = 2 * PAGE;

/// Asks that the stack which the calls of the engine use be kept in memory and out of core dumps. For the thread that
/// calls it, at its start: [`LOCKED_STACK`] bytes below the caller, for as long as the stack is there. The engine has
/// keys in it while a call runs; afterwards the binding wipes it.
///
/// What the system does not allow is left undone, and is no failure. A thread needs 16 KiB more of stack for this than
/// is locked, beside what its own frames take.
#[inline(never)]
pub fn lock_stack() {
    let mut room = [MaybeUninit::<u8>::uninit(); UNLOCKED_STACK + LOCKED_STACK];
    for page in room.chunks_mut(PAGE) {
        // SAFETY: the pointer comes from a live `&mut`; a volatile write is not left out by the compiler.
        unsafe { std::ptr::write_volatile(page.as_mut_ptr().cast::<u8>(), 0) };
    }
    let locked = &mut room[UNLOCKED_STACK..];
    let start = locked.as_mut_ptr() as usize / PAGE * PAGE;
    let length = (locked.as_mut_ptr_range().end as usize).next_multiple_of(PAGE) - start;
    // SAFETY: the pages hold this frame and perhaps the end of the caller's: the stack, mapped for as long as the
    // thread lives.
    unsafe { protect(std::ptr::without_provenance_mut(start), length) };
}
