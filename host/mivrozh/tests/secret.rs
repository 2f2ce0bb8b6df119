//! A secret's memory is wiped before it is given back, to the system or to the allocator.
//!
//! The test has an allocator and a `munmap` of its own. Both look into each piece of memory that is given back, and
//! count those that hold the marker.
use mivrozh::Secret;
use std::alloc::{GlobalAlloc, Layout, System};
use std::cell::Cell;

const MARKER: [u8; 16] = *b"\xC3marked secret\x5A\x96";

// Whether this thread looks, how many pieces it has seen, and how many of them held the marker.
thread_local! {
    static LOOKS: Cell<bool> = const { Cell::new(false) };
    static UNMAPPED: Cell<usize> = const { Cell::new(0) };
    static FOUND: Cell<usize> = const { Cell::new(0) };
}

fn add_one(count: &'static std::thread::LocalKey<Cell<usize>>) {
    count.set(count.get() + 1);
}

// SAFETY: the memory from `start` on is readable.
unsafe fn look(start: *const u8, length: usize) {
    let bytes = std::slice::from_raw_parts(start, length);
    if bytes.windows(MARKER.len()).any(|window| window == MARKER) {
        add_one(&FOUND);
    }
}

struct Looking;

// SAFETY: all work is the system's allocator's; memory is read while it still belongs to who gives it back. It was
// zeroed when it was taken, so all of it may be read.
unsafe impl GlobalAlloc for Looking {
    unsafe fn alloc(&self, layout: Layout) -> *mut u8 {
        System.alloc_zeroed(layout)
    }

    unsafe fn dealloc(&self, start: *mut u8, layout: Layout) {
        if LOOKS.get() {
            look(start, layout.size());
        }
        System.dealloc(start, layout);
    }
}

#[global_allocator]
static ALLOCATOR: Looking = Looking;

extern "C" {
    fn syscall(number: i64, ...) -> i64;
}
const MUNMAP: i64 = 11;

// The linker takes this function for the C library's. Nothing but the secret's memory is unmapped by a thread that
// looks.
//
// SAFETY: no other function of the program has the name, and it does what the C library's does.
#[no_mangle]
unsafe extern "C" fn munmap(start: *mut u8, length: usize) -> i32 {
    if LOOKS.get() {
        add_one(&UNMAPPED);
        look(start, length);
    }
    syscall(MUNMAP, start, length) as i32
}

// How many pieces of memory are unmapped by this work, and how many with the marker are given back.
fn found(work: impl FnOnce()) -> (usize, usize) {
    let before = (UNMAPPED.get(), FOUND.get());
    LOOKS.set(true);
    work();
    LOOKS.set(false);
    (UNMAPPED.get() - before.0, FOUND.get() - before.1)
}

#[test]
fn a_secret_is_wiped_when_it_is_dropped() {
    assert_eq!(found(|| drop(std::hint::black_box(MARKER.to_vec()))), (0, 1), "the test sees what is not wiped");

    assert_eq!(found(|| drop(std::hint::black_box(Secret::from(&MARKER[..])))), (1, 0));
    assert_eq!(found(|| drop(std::hint::black_box(Secret::from(MARKER.to_vec())))), (1, 0));

    let cut_short = || {
        let mut secret = Secret::from(MARKER.to_vec());
        secret.truncate(0);
        drop(std::hint::black_box(secret));
    };
    assert_eq!(found(cut_short), (1, 0));

    let spare_capacity = || {
        let mut bytes = MARKER.to_vec();
        bytes.truncate(0);
        drop(std::hint::black_box(Secret::from(bytes)));
    };
    assert_eq!(found(spare_capacity), (0, 0), "and no memory for no byte");
}

// What is cut off is wiped at once, not when the rest is dropped.
#[test]
fn what_is_cut_off_is_wiped() {
    let mut secret = Secret::from(&[&[1; 4][..], &MARKER].concat()[..]);
    let start = secret.expose().as_ptr();
    secret.truncate(4);
    // SAFETY: the secret's memory is as long as it was.
    unsafe { assert_eq!(std::slice::from_raw_parts(start, 20), [&[1; 4][..], &[0; 16]].concat()) };
}
