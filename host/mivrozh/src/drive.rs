//! The calls on a drive.
use crate::{raw, Counted, Header, Profile, Refusal, Secret, SectorWrites, SlotDetails, Slots};
use std::fmt;

/// A drive in an image that was lent: the header, the eight key areas and the payload.
///
/// Over `&image[..]` it can be read; over `&mut image[..]`, or an image of its own such as a `Vec<u8>`, it can be
/// changed too. A call that is refused has changed nothing.
///
/// The calls that may derive keys give their result [with the number of HMAC values](Counted) that they made; those that only
/// show what the header says derive nothing.
///
/// ```
/// use mivrozh::{Drive, Refusal};
///
/// let image = [0; 1024];
/// assert_eq!(Drive::over(&image[..]).check(), Err(Refusal::Magic));
/// let mut image = [0; 1024];
/// assert_eq!(Drive::over(&mut image[..]).revoke(1, &[], &mut []).result, Err(Refusal::Magic));
/// ```
///
/// What can only be read cannot be changed:
///
/// ```compile_fail,E0599
/// # use mivrozh::{Drive, Refusal};
/// let image = [0; 1024];
/// assert_eq!(Drive::over(&image[..]).revoke(1, &[], &mut []).result, Err(Refusal::Magic));
/// ```
pub struct Drive<I> {
    image: I,
}

/// A unit of the payload: 512 bytes, counted from 0 at the payload's start. Not a sector of the image.
#[derive(Clone, Copy, Debug, PartialEq, Eq, PartialOrd, Ord, Hash)]
pub struct PayloadUnit(pub u64);

/// What a format needs. Key and salt are to come from a good source of randomness.
///
/// Later versions may have more fields, so it is made by [`FormatInput::new`] and not by a literal:
///
/// ```compile_fail,E0639
/// # use mivrozh::{FormatInput, Profile, Secret};
/// # let (profile, key, salt, uuid) = (Profile::Key256, Secret::zeroed(32), [0; 32], "");
/// FormatInput { profile, stripes: 4000, key: &key, salt: &salt, count: 1000, uuid };
/// ```
#[derive(Clone, Copy)]
#[non_exhaustive]
pub struct FormatInput<'a> {
    pub profile: Profile,
    /// 1 to 4,000.
    pub stripes: u32,
    pub key: &'a Secret,
    pub salt: &'a [u8; 32],
    /// Iterations of the key's checksum, 1,000 or more.
    pub count: u32,
    /// 36 printable characters.
    pub uuid: &'a str,
}

impl<'a> FormatInput<'a> {
    /// A drive with 4,000 stripes, as other tools write.
    pub fn new(profile: Profile, key: &'a Secret, salt: &'a [u8; 32], count: u32, uuid: &'a str) -> FormatInput<'a> {
        FormatInput { profile, stripes: crate::header::MOST_STRIPES, key, salt, count, uuid }
    }

    /// Another number of stripes, 1 to 4,000.
    pub fn stripes(self, stripes: u32) -> FormatInput<'a> {
        FormatInput { stripes, ..self }
    }
}

/// What a key slot is filled with. Salt and random bytes are to come from a good source of randomness.
///
/// Later versions may have more fields, so it is made by [`SlotInput::new`] and not by a literal:
///
/// ```compile_fail,E0639
/// # use mivrozh::{Secret, SlotInput};
/// # let (passphrase, salt) = (Secret::zeroed(1), [0; 32]);
/// SlotInput { passphrase: &passphrase, salt: &salt, count: 1000, random: &[] };
/// ```
#[derive(Clone, Copy)]
#[non_exhaustive]
pub struct SlotInput<'a> {
    /// 1 to 512 bytes.
    pub passphrase: &'a Secret,
    pub salt: &'a [u8; 32],
    /// Iterations of the derivation, 1,000 or more.
    pub count: u32,
    /// As many as [`Header::random_length`] says.
    pub random: &'a [u8],
}

impl<'a> SlotInput<'a> {
    pub fn new(passphrase: &'a Secret, salt: &'a [u8; 32], count: u32, random: &'a [u8]) -> SlotInput<'a> {
        SlotInput { passphrase, salt, count, random }
    }
}

/// What an opening gives.
#[derive(Debug)]
#[non_exhaustive]
pub struct Opened {
    /// The slot that opened, 1 to 8.
    pub slot: u8,
    /// The master key.
    pub key: Secret,
}

impl<I> Drive<I> {
    /// The drive in this image. Nobody else may change its bytes while a call runs: the engine judges the header first and
    /// reads it again later. So a mapping of a file that other programs can write is not to be lent, but a copy.
    pub fn over(image: I) -> Drive<I> {
        Drive { image }
    }
}

/// The calls that read.
impl<I: AsRef<[u8]>> Drive<I> {
    pub fn image(&self) -> &[u8] {
        self.image.as_ref()
    }

    /// What the header says, where it passes the engine's check.
    pub fn header(&self) -> Result<Header, Refusal> {
        Header::of(self.image())
    }

    /// Checks the header as every call but format does first, and derives nothing.
    pub fn check(&self) -> Result<(), Refusal> {
        self.slots().map(|_| ())
    }

    /// Which key slots are enabled, and nothing else. No passphrase is needed.
    pub fn slots(&self) -> Result<Slots, Refusal> {
        Slots::of(self.image())
    }

    /// Which key slots are enabled, and the count, area start and stripes of each, disabled or not. No passphrase is
    /// needed.
    pub fn slot_details(&self) -> Result<SlotDetails, Refusal> {
        SlotDetails::of(self.image())
    }

    /// Opens one slot. It makes as many HMAC values as [`Header::trial_values`] says; none where it is refused with another number
    /// than 17.
    pub fn open_slot(&self, slot: u8, passphrase: &Secret) -> Counted<Opened> {
        opened(|buffer, values| raw::open_slot(self.image(), slot, passphrase.expose(), buffer, values))
    }

    /// Opens the first slot, from 1 to 8, that this passphrase opens. Each enabled slot up to the one that opens is tried, and costs
    /// as many HMAC values as [`Header::trial_values`] says. That is never more than [`Header::search_values`], and where no slot
    /// opens (17) it is exactly that.
    pub fn open(&self, passphrase: &Secret) -> Counted<Opened> {
        opened(|buffer, values| raw::open(self.image(), passphrase.expose(), buffer, values))
    }

    /// Reads and deciphers units of the payload; the buffer has 512 bytes for each. The key is tested by
    /// [`Header::checksum_values`] HMAC values, also where there are 0 units; none where it is refused with another number than
    /// 17.
    pub fn read(&self, key: &Secret, first: PayloadUnit, units: u64, buffer: &mut [u8]) -> Counted<()> {
        Counted::of(|values| raw::read(self.image(), key.expose(), first.0, units, buffer, values))
    }
}

/// The calls that change the image.
impl<I: AsRef<[u8]> + AsMut<[u8]>> Drive<I> {
    /// Makes a new drive, with no passphrase yet: every key slot is free. The payload starts on a whole mebibyte and keeps its
    /// bytes, so the image has 2 MiB and the payload with 4,000 stripes; 1 MiB and the payload are enough with up to 3,967
    /// stripes and a key of 32 bytes, and with up to 1,983 and one of 64. Other tools read 4,000 stripes only. An accepted format
    /// makes `count` HMAC values, for the key's checksum; a refused one makes none.
    pub fn format(&mut self, input: &FormatInput) -> Counted<()> {
        let (image, key, uuid) = (self.image.as_mut(), input.key.expose(), input.uuid.as_bytes());
        let FormatInput { profile, stripes, salt, count, .. } = *input;
        Counted::of(|values| raw::format(image, profile.number(), stripes, key, salt, count, uuid, values))
    }

    /// Puts the master key under a passphrase into a free slot. The list buffer is as long as [`Header::list_length`] says;
    /// what it is filled with is what goes to the disk. Where the call is refused, image and buffer stay as they were. It makes
    /// [`Header::checksum_values`] HMAC values to test the key, where it comes to that, and where it is accepted
    /// [`Header::derivation_values`] more.
    pub fn add<'l>(
        &mut self,
        slot: u8,
        key: &Secret,
        input: &SlotInput,
        list: &'l mut [u8],
    ) -> Counted<SectorWrites<'l>> {
        let (image, key, passphrase) = (self.image.as_mut(), key.expose(), input.passphrase.expose());
        let SlotInput { salt, count, random, .. } = *input;
        Counted::of(|values| raw::add(image, slot, key, passphrase, salt, count, random, list, values))
            .map(|()| SectorWrites::of(list))
    }

    /// Opens slot `from`, adds its key to the free slot `to` under the new passphrase, and revokes `from`. The list buffer is as
    /// long as [`Header::change_list_length`] says. Where the call is refused, image and buffer stay as they were. It makes
    /// [`Header::trial_values`] HMAC values of `from`, where it comes to that, and where it is accepted
    /// [`Header::derivation_values`] more.
    ///
    /// Where the writes were cut while slot `to` is still disabled, the same call, given again before any other, ends the
    /// change. Where `to` is enabled by then, the call is not repeated: a revocation of `from` ends the change, or is refused
    /// with 15 since it is done. With the same salt, random bytes and filler the image is the uncut one, byte for byte; with
    /// new ones the change is ended as well. Till then `from` may be enabled and open with no passphrase, as after a cut
    /// [revocation](Drive::revoke).
    pub fn change<'l>(
        &mut self,
        from: u8,
        old: &Secret,
        to: u8,
        input: &SlotInput,
        filler: &[u8],
        list: &'l mut [u8],
    ) -> Counted<SectorWrites<'l>> {
        let (image, old, new) = (self.image.as_mut(), old.expose(), input.passphrase.expose());
        let SlotInput { salt, count, random, .. } = *input;
        Counted::of(|values| raw::change(image, from, old, to, new, salt, count, random, filler, list, values))
            .map(|()| SectorWrites::of(list))
    }

    /// Frees a slot and overwrites its area with the filler, as long as [`Header::area_length`] says. The list buffer is as
    /// long as [`Header::list_length`] says. Where the call is refused, image and buffer stay as they were.
    ///
    /// Where the writes were cut, the slot may still be enabled, and open with no passphrase: until the same call is given
    /// again, it counts as another slot in use where another is revoked. No HMAC value is made.
    pub fn revoke<'l>(&mut self, slot: u8, filler: &[u8], list: &'l mut [u8]) -> Counted<SectorWrites<'l>> {
        let image = self.image.as_mut();
        Counted::of(|values| raw::revoke(image, slot, filler, list, values)).map(|()| SectorWrites::of(list))
    }

    /// Enciphers and writes units of the payload; the buffer has 512 bytes for each. The key is tested as for a
    /// [reading](Drive::read).
    pub fn write(&mut self, key: &Secret, first: PayloadUnit, units: u64, buffer: &[u8]) -> Counted<()> {
        Counted::of(|values| raw::write(self.image.as_mut(), key.expose(), first.0, units, buffer, values))
    }
}

// What is printed says nothing of an image, a key, a passphrase or stripes.

impl<I: AsRef<[u8]>> fmt::Debug for Drive<I> {
    fn fmt(&self, f: &mut fmt::Formatter<'_>) -> fmt::Result {
        f.debug_struct("Drive").field("length", &self.image().len()).finish()
    }
}

impl fmt::Debug for FormatInput<'_> {
    fn fmt(&self, f: &mut fmt::Formatter<'_>) -> fmt::Result {
        let FormatInput { profile, stripes, count, uuid, .. } = self;
        f.debug_struct("FormatInput")
            .field("profile", profile)
            .field("stripes", stripes)
            .field("count", count)
            .field("uuid", uuid)
            .finish_non_exhaustive()
    }
}

impl fmt::Debug for SlotInput<'_> {
    fn fmt(&self, f: &mut fmt::Formatter<'_>) -> fmt::Result {
        f.debug_struct("SlotInput").field("count", &self.count).finish_non_exhaustive()
    }
}

// Lends a buffer of 66 bytes to an opening: slot, key length and the 64 key bytes. It is wiped.
fn opened(open: impl FnOnce(&mut [u8; 66], &mut u64) -> u8) -> Counted<Opened> {
    let mut buffer = Secret::zeroed(66);
    Counted::of(|values| open(buffer.expose_mut().try_into().expect("66 bytes"), values)).map(|()| {
        let [slot, length, ref key @ ..] = *buffer.expose() else { unreachable!("66 bytes") };
        Opened { slot, key: Secret::from(&key[..usize::from(length)]) }
    })
}
