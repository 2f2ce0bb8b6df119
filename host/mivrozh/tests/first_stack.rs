//! A locked stack still grows. The stack of a program's first thread grows as it is used, and what it grows by counts
//! as locked where its lowest piece is. So this program has no harness: what it tests runs in its first thread.
#[allow(dead_code)]
mod limits;
use std::hint::black_box;

// Calls the work below so many frames of 256 KiB: each is more than the system gives a stack at its start.
#[inline(never)]
fn below(frames: usize, work: fn()) {
    let mut frame = [0u8; 256 * 1024];
    black_box(&mut frame);
    match frames {
        1 => work(),
        _ => below(frames - 1, work),
    }
    black_box(&mut frame);
}

fn main() {
    below(1, || {
        mivrozh::lock_stack();
        limits::hold_to(0);
    });
    // The stack grows by three more frames, while not a byte more may be locked.
    below(4, || {});
    println!("test result: ok. 1 passed: a stack that was locked grows");
}
