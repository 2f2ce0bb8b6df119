//! The engine's ten C functions as safe functions, and the wiping of memory. The unsafe code of the binding is here
//! and in the module `memory`.
//!
//! Each function mirrors the one of `include/mivrozh.h` that it is named after: it returns 0, or the number of the
//! refusal, and fills `values`, where it has that, with the number of HMAC values it made, also where it is refused.
//! After each call the stack that it used is wiped.

extern "C" {
    fn mivrozh_format(
        image: *mut u8,
        image_len: usize,
        profile: u8,
        stripes: u32,
        key: *const u8,
        key_len: usize,
        salt: *const u8,
        count: u32,
        uuid: *const u8,
        uuid_len: usize,
        values: *mut u64,
    ) -> u8;
    fn mivrozh_add(
        image: *mut u8,
        image_len: usize,
        slot: u8,
        key: *const u8,
        key_len: usize,
        passphrase: *const u8,
        passphrase_len: usize,
        salt: *const u8,
        count: u32,
        random: *const u8,
        random_len: usize,
        list: *mut u8,
        list_len: usize,
        values: *mut u64,
    ) -> u8;
    fn mivrozh_open_slot(
        image: *const u8,
        image_len: usize,
        slot: u8,
        passphrase: *const u8,
        passphrase_len: usize,
        opened: *mut u8,
        values: *mut u64,
    ) -> u8;
    fn mivrozh_open(
        image: *const u8,
        image_len: usize,
        passphrase: *const u8,
        passphrase_len: usize,
        opened: *mut u8,
        values: *mut u64,
    ) -> u8;
    fn mivrozh_change(
        image: *mut u8,
        image_len: usize,
        from: u8,
        old_passphrase: *const u8,
        old_len: usize,
        to: u8,
        new_passphrase: *const u8,
        new_len: usize,
        salt: *const u8,
        count: u32,
        random: *const u8,
        random_len: usize,
        filler: *const u8,
        filler_len: usize,
        list: *mut u8,
        list_len: usize,
        values: *mut u64,
    ) -> u8;
    fn mivrozh_revoke(
        image: *mut u8,
        image_len: usize,
        slot: u8,
        filler: *const u8,
        filler_len: usize,
        list: *mut u8,
        list_len: usize,
        values: *mut u64,
    ) -> u8;
    fn mivrozh_slots(image: *const u8, image_len: usize, enabled: *mut u8) -> u8;
    fn mivrozh_slot_details(
        image: *const u8,
        image_len: usize,
        enabled: *mut u8,
        counts: *mut u32,
        starts: *mut u32,
        stripes: *mut u32,
    ) -> u8;
    fn mivrozh_read(
        image: *const u8,
        image_len: usize,
        key: *const u8,
        key_len: usize,
        first: u64,
        units: u64,
        buffer: *mut u8,
        buffer_len: usize,
        values: *mut u64,
    ) -> u8;
    fn mivrozh_write(
        image: *mut u8,
        image_len: usize,
        key: *const u8,
        key_len: usize,
        first: u64,
        units: u64,
        buffer: *const u8,
        buffer_len: usize,
        values: *mut u64,
    ) -> u8;
}

// Every call below is sound for the same reason. The pointers come from references that live through the call, each
// with the length that goes with it, so they are valid to read, and those from `&mut` to write. Rust's borrows keep
// what is written apart from all else. The engine keeps no pointer, has no global state, and accepts every value of its
// arguments: it is proved without a precondition.

#[allow(clippy::too_many_arguments)]
pub fn format(
    image: &mut [u8],
    profile: u8,
    stripes: u32,
    key: &[u8],
    salt: &[u8; 32],
    count: u32,
    uuid: &[u8],
    values: &mut u64,
) -> u8 {
    // SAFETY: live, separate references with their lengths, as said above.
    then_wipe(|| unsafe {
        mivrozh_format(
            image.as_mut_ptr(),
            image.len(),
            profile,
            stripes,
            key.as_ptr(),
            key.len(),
            salt.as_ptr(),
            count,
            uuid.as_ptr(),
            uuid.len(),
            values,
        )
    })
}

#[allow(clippy::too_many_arguments)]
pub fn add(
    image: &mut [u8],
    slot: u8,
    key: &[u8],
    passphrase: &[u8],
    salt: &[u8; 32],
    count: u32,
    random: &[u8],
    list: &mut [u8],
    values: &mut u64,
) -> u8 {
    // SAFETY: live, separate references with their lengths, as said above.
    then_wipe(|| unsafe {
        mivrozh_add(
            image.as_mut_ptr(),
            image.len(),
            slot,
            key.as_ptr(),
            key.len(),
            passphrase.as_ptr(),
            passphrase.len(),
            salt.as_ptr(),
            count,
            random.as_ptr(),
            random.len(),
            list.as_mut_ptr(),
            list.len(),
            values,
        )
    })
}

pub fn open_slot(image: &[u8], slot: u8, passphrase: &[u8], opened: &mut [u8; 66], values: &mut u64) -> u8 {
    // SAFETY: live, separate references with their lengths, as said above; `opened` has the 66 bytes that are written.
    then_wipe(|| unsafe {
        mivrozh_open_slot(
            image.as_ptr(),
            image.len(),
            slot,
            passphrase.as_ptr(),
            passphrase.len(),
            opened.as_mut_ptr(),
            values,
        )
    })
}

pub fn open(image: &[u8], passphrase: &[u8], opened: &mut [u8; 66], values: &mut u64) -> u8 {
    // SAFETY: live, separate references with their lengths, as said above; `opened` has the 66 bytes that are written.
    then_wipe(|| unsafe {
        mivrozh_open(image.as_ptr(), image.len(), passphrase.as_ptr(), passphrase.len(), opened.as_mut_ptr(), values)
    })
}

#[allow(clippy::too_many_arguments)]
pub fn change(
    image: &mut [u8],
    from: u8,
    old: &[u8],
    to: u8,
    new: &[u8],
    salt: &[u8; 32],
    count: u32,
    random: &[u8],
    filler: &[u8],
    list: &mut [u8],
    values: &mut u64,
) -> u8 {
    // SAFETY: live, separate references with their lengths, as said above.
    then_wipe(|| unsafe {
        mivrozh_change(
            image.as_mut_ptr(),
            image.len(),
            from,
            old.as_ptr(),
            old.len(),
            to,
            new.as_ptr(),
            new.len(),
            salt.as_ptr(),
            count,
            random.as_ptr(),
            random.len(),
            filler.as_ptr(),
            filler.len(),
            list.as_mut_ptr(),
            list.len(),
            values,
        )
    })
}

pub fn revoke(image: &mut [u8], slot: u8, filler: &[u8], list: &mut [u8], values: &mut u64) -> u8 {
    // SAFETY: live, separate references with their lengths, as said above.
    then_wipe(|| unsafe {
        mivrozh_revoke(
            image.as_mut_ptr(),
            image.len(),
            slot,
            filler.as_ptr(),
            filler.len(),
            list.as_mut_ptr(),
            list.len(),
            values,
        )
    })
}

pub fn slots(image: &[u8], enabled: &mut [u8; 8]) -> u8 {
    // SAFETY: live, separate references, as said above; `enabled` has the 8 entries that are written.
    then_wipe(|| unsafe { mivrozh_slots(image.as_ptr(), image.len(), enabled.as_mut_ptr()) })
}

pub fn slot_details(
    image: &[u8],
    enabled: &mut [u8; 8],
    counts: &mut [u32; 8],
    starts: &mut [u32; 8],
    stripes: &mut [u32; 8],
) -> u8 {
    // SAFETY: live, separate references, as said above; each array has the 8 entries that are written.
    then_wipe(|| unsafe {
        mivrozh_slot_details(
            image.as_ptr(),
            image.len(),
            enabled.as_mut_ptr(),
            counts.as_mut_ptr(),
            starts.as_mut_ptr(),
            stripes.as_mut_ptr(),
        )
    })
}

pub fn read(image: &[u8], key: &[u8], first: u64, units: u64, buffer: &mut [u8], values: &mut u64) -> u8 {
    // SAFETY: live, separate references with their lengths, as said above.
    then_wipe(|| unsafe {
        mivrozh_read(
            image.as_ptr(),
            image.len(),
            key.as_ptr(),
            key.len(),
            first,
            units,
            buffer.as_mut_ptr(),
            buffer.len(),
            values,
        )
    })
}

pub fn write(image: &mut [u8], key: &[u8], first: u64, units: u64, buffer: &[u8], values: &mut u64) -> u8 {
    // SAFETY: live, separate references with their lengths, as said above.
    then_wipe(|| unsafe {
        mivrozh_write(
            image.as_mut_ptr(),
            image.len(),
            key.as_ptr(),
            key.len(),
            first,
            units,
            buffer.as_ptr(),
            buffer.len(),
            values,
        )
    })
}

/// A bound on the stack of a call, in bytes; `include/mivrozh.h` has the same. Measured by `tests/stack.rs` at 4,000
/// stripes and a key of 64 bytes, the larger figure of both hashes: format 5,327, add 34,407, open by number 42,903,
/// open 42,903, change 43,271, revoke 1,214, slots 1,006, slot details 1,358, read 33,639, write 33,639.
pub const MOST_STACK: usize = 56 * 1024;

/// How many bytes of stack are wiped after each call: as many, and 8 KiB for the frames around it.
pub const WIPED_STACK: usize = MOST_STACK + 8 * 1024;

// The room between the caller's frame and that of the engine's function, so that the wiping, whose own frame begins
// where this room begins, covers all of the engine's frames.
const HEADROOM: usize = 512;

// Makes a call and wipes the stack that it used.
fn then_wipe(call: impl FnOnce() -> u8) -> u8 {
    let number = below_headroom(call);
    wipe_stack();
    number
}

#[inline(never)]
fn below_headroom(call: impl FnOnce() -> u8) -> u8 {
    let mut room = [0u8; HEADROOM];
    std::hint::black_box(&mut room);
    let number = call();
    std::hint::black_box(&mut room);
    number
}

#[inline(never)]
fn wipe_stack() {
    let mut dead = [std::mem::MaybeUninit::<u64>::uninit(); WIPED_STACK / 8];
    for word in &mut dead {
        // SAFETY: the pointer comes from a live `&mut`; a volatile write is not left out by the compiler.
        unsafe { std::ptr::write_volatile(word.as_mut_ptr(), 0) };
    }
}

/// Overwrites the bytes with zeros, also where nothing reads them afterwards.
pub fn wipe(bytes: &mut [u8]) {
    for byte in bytes {
        // SAFETY: the pointer is a live `&mut`; a volatile write is not left out by the compiler.
        unsafe { std::ptr::write_volatile(byte, 0) };
    }
    std::sync::atomic::compiler_fence(std::sync::atomic::Ordering::SeqCst);
}
