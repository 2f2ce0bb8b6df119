//! LUKS version 1 drives: a safe binding to the proved engine.
//!
//! A [`Drive`] stands over an image that its user lends; its methods are the engine's calls. Salts, random bytes and
//! filler are the caller's. Keys and passphrases are [`Secret`]s, and [`lock_stack`] keeps the engine's own frames in
//! memory. What an addition, a change or a revocation has to write to the disk is its [`SectorWrites`], which a loss of power
//! may cut anywhere. Beside each result stands how many HMAC values the call made: [`Counted`].
//!
//! ```
//! use mivrozh::{Drive, FormatInput, PayloadUnit, Profile, Secret, SlotInput};
//!
//! let mut image = vec![0; (1 << 20) + 512]; // The payload starts after 1 MiB, with many stripes after 2.
//! let (key, passphrase) = (Secret::from(vec![7; 64]), Secret::from(&b"open sesame"[..]));
//! let (salt, random) = ([9; 32], []); // From a good source of randomness in earnest.
//! let mut drive = Drive::over(&mut image[..]);
//! let uuid = "6a2b1f0e-3c4d-4e5f-8a9b-0c1d2e3f4a5b";
//! drive.format(&FormatInput::new(Profile::Key512, &key, &salt, 1000, uuid).stripes(1)).result?;
//! let mut list = vec![0; drive.header()?.list_length(1)];
//! let writes = drive.add(1, &key, &SlotInput::new(&passphrase, &salt, 1000, &random), &mut list).result?;
//! assert!(writes.into_iter().map(|write| write.sector).eq([8, 1, 0])); // What goes to the disk, in this order.
//! assert!(drive.slots()?.enabled().eq([1]));
//! let opened = drive.open(&passphrase).result?;
//! assert_eq!(opened.slot, 1);
//! drive.write(&opened.key, PayloadUnit(0), 1, &[1; 512]).result?;
//! # Ok::<(), mivrozh::Refusal>(())
//! ```
#![deny(unsafe_code)]

mod counted;
mod drive;
pub mod header;
#[allow(unsafe_code)]
mod memory;
mod platform;
mod profile;
#[allow(unsafe_code)]
pub mod raw;
mod refusal;
mod secret;
mod slots;
mod writes;

pub use counted::Counted;
pub use drive::{Drive, FormatInput, Opened, PayloadUnit, SlotInput};
pub use header::Header;
pub use memory::{lock_stack, LOCKED_STACK};
pub use profile::{Hash, Profile};
pub use refusal::Refusal;
pub use secret::Secret;
pub use slots::{Slot, SlotDetails, Slots};
pub use writes::{SectorWrite, SectorWrites};

// The example in README.md compiles.
#[cfg(doctest)]
#[doc = include_str!("../../../README.md")]
struct Readme;
