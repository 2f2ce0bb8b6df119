//! What the calls leave on the stack: how deep they go, and that no key is there after the binding has wiped it.
//!
//! Each call runs on a thread whose stack is memory of the test, painted beforehand. When the call has returned the thread
//! spins, and the test looks at the stack as it lies there.
use mivrozh::{raw, Drive, Secret};
use std::ffi::c_void;
use std::sync::atomic::{AtomicBool, AtomicU8, AtomicUsize, Ordering};

const STACK: usize = 512 * 1024;
const PAINT: u8 = 0xA5;
const STRIPES: u32 = 4000;
const LENGTH: usize = 64;
// More than 32, and not a multiple of it.
const UNITS: usize = 40;
const IMAGE: usize = (4096 + UNITS) * 512;
const COUNT: u32 = 1000;
// Each sector of an area and the two of the header, with its number.
const LIST: usize = (STRIPES as usize * LENGTH).div_ceil(512) * 516 + 2 * 516;
const UUID: &[u8; 36] = b"6a2b1f0e-3c4d-4e5f-8a9b-0c1d2e3f4a5b";

// What a user must have for a call.
const _: () = assert!(raw::MOST_STACK < 64 * 1024, "the stack of a call stays below 64 KiB");

type In = *const u8;
type Out = *mut u8;
type Values = *mut u64;

// The engine's functions without the binding, so without its wiping; and threads with a given stack.
extern "C" {
    fn mivrozh_format(
        i: Out,
        il: usize,
        p: u8,
        n: u32,
        k: In,
        kl: usize,
        s: In,
        c: u32,
        u: In,
        ul: usize,
        v: Values,
    ) -> u8;
    fn mivrozh_add(
        i: Out,
        il: usize,
        at: u8,
        k: In,
        kl: usize,
        p: In,
        pl: usize,
        s: In,
        c: u32,
        r: In,
        rl: usize,
        l: Out,
        ll: usize,
        v: Values,
    ) -> u8;
    fn mivrozh_open_slot(i: In, il: usize, at: u8, p: In, pl: usize, opened: Out, v: Values) -> u8;
    fn mivrozh_open(i: In, il: usize, p: In, pl: usize, opened: Out, v: Values) -> u8;
    #[rustfmt::skip]
    fn mivrozh_change(
        i: Out,
        il: usize,
        at: u8,
        p: In,
        pl: usize,
        to: u8,
        q: In,
        ql: usize,
        s: In,
        c: u32,
        r: In,
        rl: usize,
        f: In,
        fl: usize,
        l: Out,
        ll: usize,
        v: Values,
    ) -> u8;
    fn mivrozh_revoke(i: Out, il: usize, at: u8, f: In, fl: usize, l: Out, ll: usize, v: Values) -> u8;
    fn mivrozh_slots(i: In, il: usize, enabled: Out) -> u8;
    fn mivrozh_slot_details(i: In, il: usize, enabled: Out, c: *mut u32, starts: *mut u32, n: *mut u32) -> u8;
    fn mivrozh_read(i: In, il: usize, k: In, kl: usize, first: u64, units: u64, b: Out, bl: usize, v: Values) -> u8;
    fn mivrozh_write(i: Out, il: usize, k: In, kl: usize, first: u64, units: u64, b: In, bl: usize, v: Values) -> u8;

    fn pthread_attr_init(attributes: *mut u64) -> i32;
    fn pthread_attr_setstack(attributes: *mut u64, stack: Out, size: usize) -> i32;
    fn pthread_attr_destroy(attributes: *mut u64) -> i32;
    fn pthread_create(
        thread: *mut usize,
        attributes: *const u64,
        start: extern "C" fn(*mut c_void) -> *mut c_void,
        argument: *mut c_void,
    ) -> i32;
    fn pthread_join(thread: usize, result: *mut *mut c_void) -> i32;
}

#[derive(Clone, Copy, Debug, PartialEq)]
enum Call {
    Format,
    Add,
    OpenSlot,
    Open,
    Change,
    Revoke,
    Slots,
    SlotDetails,
    Read,
    Write,
}

const CALLS: [Call; 10] = [
    Call::Format,
    Call::Add,
    Call::OpenSlot,
    Call::Open,
    Call::Change,
    Call::Revoke,
    Call::Slots,
    Call::SlotDetails,
    Call::Read,
    Call::Write,
];
// The profiles with keys of `LENGTH` bytes, one of each hash.
const PROFILES: [u8; 2] = [2, 4];
// The calls that have a key or derive one.
const KEYED: [Call; 7] = [Call::Format, Call::Add, Call::OpenSlot, Call::Open, Call::Change, Call::Read, Call::Write];

// A drive with passphrases in slots 1 and 8, and the arguments of every call. All of it stands on the heap.
struct Scene {
    profile: u8,
    image: Vec<u8>,
    key: Vec<u8>,
    first: Vec<u8>,
    last: Vec<u8>,
    salt: Box<[u8; 32]>,
    random: Vec<u8>,
    filler: Vec<u8>,
    // For the list of an addition or a revocation, and twice as long for a change.
    list: Vec<u8>,
    lists: Vec<u8>,
    buffer: Vec<u8>,
    opened: Box<[u8; 66]>,
    enabled: Box<[u8; 8]>,
    // Counts, starts and stripes.
    details: Box<[[u32; 8]; 3]>,
    values: Box<u64>,
}

impl Scene {
    fn new(profile: u8) -> Scene {
        let mut scene = Scene {
            profile,
            image: vec![0; IMAGE],
            key: bytes(1, LENGTH),
            first: bytes(2, 20),
            last: bytes(3, LENGTH),
            salt: Box::new(bytes(4, 32).try_into().expect("32 bytes")),
            random: bytes(5, (STRIPES as usize - 1) * LENGTH),
            filler: bytes(6, STRIPES as usize * LENGTH),
            list: vec![0; LIST],
            lists: vec![0; 2 * LIST],
            buffer: bytes(7, UNITS * 512),
            opened: Box::new([0; 66]),
            enabled: Box::new([0; 8]),
            details: Box::new([[0; 8]; 3]),
            values: Box::new(0),
        };
        assert_eq!(scene.bound(Call::Format), 0);
        let Scene { image, key, first, last, salt, random, list, values, .. } = &mut scene;
        assert_eq!(raw::add(image, 1, key, first, salt, COUNT, random, list, values), 0);
        assert_eq!(raw::add(image, 8, key, last, salt, COUNT, random, list, values), 0);
        scene
    }

    // The beginning of the key that the passphrase of slot 8 derives, and so of its AES key schedule. The header's
    // checksum is the same derivation, of a master key: so it is read from a drive whose key is that passphrase.
    fn derived(&self) -> Vec<u8> {
        let mut image = vec![0; 1 << 20];
        assert_eq!(raw::format(&mut image, self.profile, 1, &self.last, &self.salt, COUNT, UUID, &mut 0), 0);
        image[112..132].to_vec()
    }

    // The call through the binding.
    fn bound(&mut self, call: Call) -> u8 {
        let Scene { profile, image, key, first, last, salt, random, filler, list, lists, .. } = self;
        let Scene { buffer, opened, enabled, details, values, .. } = self;
        let [counts, starts, stripes] = &mut **details;
        let units = UNITS as u64;
        match call {
            Call::Format => raw::format(image, *profile, STRIPES, key, salt, COUNT, UUID, values),
            Call::Add => raw::add(image, 2, key, last, salt, COUNT, random, list, values),
            Call::OpenSlot => raw::open_slot(image, 8, last, opened, values),
            Call::Open => raw::open(image, last, opened, values),
            Call::Change => raw::change(image, 8, last, 3, first, salt, COUNT, random, filler, lists, values),
            Call::Revoke => raw::revoke(image, 1, filler, list, values),
            Call::Slots => raw::slots(image, enabled),
            Call::SlotDetails => raw::slot_details(image, enabled, counts, starts, stripes),
            Call::Read => raw::read(image, key, 0, units, buffer, values),
            Call::Write => raw::write(image, key, 0, units, buffer, values),
        }
    }

    // The same call without the binding.
    #[rustfmt::skip]
    fn bare(&mut self, call: Call) -> u8 {
        let Scene { profile, image, key, first, last, salt, random, filler, list, lists, .. } = self;
        let Scene { buffer, opened, enabled, details, values, .. } = self;
        let (e, d) = (enabled.as_mut_ptr(), details.each_mut().map(|array| array.as_mut_ptr()));
        let (i, il, units) = (image.as_mut_ptr(), image.len(), UNITS as u64);
        let (k, kl, s, r, rl) = (key.as_ptr(), key.len(), salt.as_ptr(), random.as_ptr(), random.len());
        let (p, pl, f, fl) = (last.as_ptr(), last.len(), filler.as_ptr(), filler.len());
        let (q, ql, v): (_, _, Values) = (first.as_ptr(), first.len(), &mut **values);
        let ([l, both], [ll, bothl]) = ([list.as_mut_ptr(), lists.as_mut_ptr()], [list.len(), lists.len()]);
        // SAFETY: all pointers are into live, separate buffers of the scene, with their lengths.
        unsafe {
            match call {
                Call::Format => mivrozh_format(i, il, *profile, STRIPES, k, kl, s, COUNT, UUID.as_ptr(), UUID.len(), v),
                Call::Add => mivrozh_add(i, il, 2, k, kl, p, pl, s, COUNT, r, rl, l, ll, v),
                Call::OpenSlot => mivrozh_open_slot(i, il, 8, p, pl, opened.as_mut_ptr(), v),
                Call::Open => mivrozh_open(i, il, p, pl, opened.as_mut_ptr(), v),
                Call::Change => mivrozh_change(i, il, 8, p, pl, 3, q, ql, s, COUNT, r, rl, f, fl, both, bothl, v),
                Call::Revoke => mivrozh_revoke(i, il, 1, f, fl, l, ll, v),
                Call::Slots => mivrozh_slots(i, il, e),
                Call::SlotDetails => mivrozh_slot_details(i, il, e, d[0], d[1], d[2]),
                Call::Read => mivrozh_read(i, il, k, kl, 0, units, buffer.as_mut_ptr(), buffer.len(), v),
                Call::Write => mivrozh_write(i, il, k, kl, 0, units, buffer.as_ptr(), buffer.len(), v),
            }
        }
    }
}

// Bytes that look random and differ with the seed.
fn bytes(seed: u64, length: usize) -> Vec<u8> {
    let mut state = seed.wrapping_mul(0x9E37_79B9_7F4A_7C15) | 1;
    let mut next = || {
        state ^= state << 13;
        state ^= state >> 7;
        state ^= state << 17;
        (state >> 32) as u8
    };
    (0..length).map(|_| next()).collect()
}

// What the thread is to do, and what it says.
struct Task<'a> {
    work: &'a mut dyn FnMut() -> u8,
    number: AtomicU8,
    frame: AtomicUsize,
    done: AtomicBool,
    released: AtomicBool,
}

extern "C" fn thread(argument: *mut c_void) -> *mut c_void {
    // SAFETY: the argument is the task of `stack_after`, which lives until this thread has been joined.
    let task = unsafe { &mut *argument.cast::<Task>() };
    let here = 0u8;
    task.frame.store(std::hint::black_box(&here) as *const u8 as usize, Ordering::Relaxed);
    task.number.store((task.work)(), Ordering::Relaxed);
    task.done.store(true, Ordering::Release);
    while !task.released.load(Ordering::Acquire) {
        std::hint::spin_loop();
    }
    std::ptr::null_mut()
}

// The stack as it lies after the work, and how many bytes of it stand below the frame that called the work.
struct After {
    stack: Vec<u8>,
    dead: usize,
}

fn stack_after(work: &mut (dyn FnMut() -> u8 + Send)) -> After {
    let mut memory = vec![PAINT; STACK + 64];
    let start = memory.as_ptr().align_offset(64);
    let base = memory[start..].as_mut_ptr();
    let mut task = Task {
        work,
        number: AtomicU8::new(255),
        frame: AtomicUsize::new(0),
        done: AtomicBool::new(false),
        released: AtomicBool::new(false),
    };
    let (mut attributes, mut id) = ([0u64; 16], 0usize);
    let argument = (&raw mut task).cast::<c_void>();
    // SAFETY: the attributes have more room than glibc's 56 bytes; the stack and the task live until the join; while the
    // thread spins nothing writes to its stack, and volatile reads take it as it is.
    let stack = unsafe {
        assert_eq!(pthread_attr_init(attributes.as_mut_ptr()), 0);
        assert_eq!(pthread_attr_setstack(attributes.as_mut_ptr(), base, STACK), 0);
        assert_eq!(pthread_create(&mut id, attributes.as_ptr(), thread, argument), 0);
        while !(*argument.cast::<Task>()).done.load(Ordering::Acquire) {
            std::thread::yield_now();
        }
        let stack: Vec<u8> = (0..STACK).map(|at| std::ptr::read_volatile(base.add(at))).collect();
        (*argument.cast::<Task>()).released.store(true, Ordering::Release);
        assert_eq!(pthread_join(id, std::ptr::null_mut()), 0);
        pthread_attr_destroy(attributes.as_mut_ptr());
        stack
    };
    assert_eq!(task.number.load(Ordering::Relaxed), 0, "the call was accepted");
    After { stack, dead: task.frame.load(Ordering::Relaxed) - base as usize }
}

impl After {
    // How far below the caller's frame the stack was written.
    fn depth(&self) -> usize {
        let lowest = self.stack.iter().position(|&byte| byte != PAINT).expect("the stack was used");
        self.dead - lowest
    }

    // How many pieces of 8 bytes of the secret, as it is or with the bytes of each word of four turned around, stand in
    // the stack.
    fn pieces_of(&self, secret: &[u8]) -> usize {
        let turned: Vec<u8> = secret.chunks_exact(4).flat_map(|word| word.iter().rev().copied()).collect();
        let pieces: std::collections::HashSet<&[u8]> = secret.windows(8).chain(turned.windows(8)).collect();
        self.stack.windows(8).filter(|window| pieces.contains(window)).count()
    }
}

// Every call on drives of both hashes.
fn each(calls: &[Call], test: impl Fn(u8, Call)) {
    PROFILES.iter().for_each(|profile| calls.iter().for_each(|call| test(*profile, *call)));
}

#[test]
fn the_calls_stay_within_the_wiped_stack() {
    each(&CALLS, |profile, call| {
        let mut scene = Scene::new(profile);
        let depth = stack_after(&mut || scene.bare(call)).depth();
        println!("profile {profile}, {call:?}: {depth} bytes of stack");
        assert!(depth <= raw::MOST_STACK, "profile {profile}, {call:?} uses {depth} bytes");
    });
}

#[test]
fn no_key_stays_on_the_stack() {
    each(&KEYED, |profile, call| {
        let mut scene = Scene::new(profile);
        let (key, derived) = (scene.key.clone(), scene.derived());
        let bare = stack_after(&mut || scene.bare(call));
        let found = bare.pieces_of(&key) + bare.pieces_of(&derived);
        println!("profile {profile}, {call:?}: {found} pieces of keys where nothing is wiped");
        // Of format as it is compiled today no piece of a key is left; all others show that the search finds what is there.
        assert!(
            found > 0 || matches!(call, Call::Format),
            "profile {profile}, {call:?}: this test would not see a key"
        );

        let mut scene = Scene::new(profile);
        let bound = stack_after(&mut || scene.bound(call));
        assert_eq!(bound.pieces_of(&key), 0, "profile {profile}, {call:?} leaves the master key");
        assert_eq!(bound.pieces_of(&derived), 0, "profile {profile}, {call:?} leaves the derived key");
        assert_eq!(bound.pieces_of(&scene.last), 0, "profile {profile}, {call:?} leaves the passphrase");
    });
}

// The same of a Drive's method, which has the key in a buffer of its own.
#[test]
fn an_opened_drive_leaves_no_key_on_the_stack() {
    for profile in PROFILES {
        let mut scene = Scene::new(profile);
        let (key, passphrase) = (scene.key.clone(), Secret::from(&scene.last[..]));
        let mut found = None;
        let after = stack_after(&mut || {
            found = Drive::over(&mut scene.image).open(&passphrase).result.ok();
            0
        });
        assert_eq!(found.expect("slot 8 opens").key.expose(), key);
        assert_eq!(after.pieces_of(&key), 0);
        assert_eq!(after.pieces_of(&scene.last), 0);
    }
}

// Below the frames of the binding itself, which hold pointers and lengths, the wiped stack has nothing but zeros.
#[test]
fn the_engines_frames_are_zeros() {
    const OF_THE_BINDING: usize = 2048;
    each(&CALLS, |profile, call| {
        let mut scene = Scene::new(profile);
        let bound = stack_after(&mut || scene.bound(call));
        let wiped = &bound.stack[bound.dead - raw::WIPED_STACK..bound.dead - OF_THE_BINDING];
        assert!(wiped.iter().all(|&byte| byte == 0), "profile {profile}, {call:?} leaves something");
    });
}
