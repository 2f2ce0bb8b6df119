//! The numbers of a header that a caller needs before a call: key length, payload start, the key slots' areas, and how many
//! HMAC values a call will make.
//!
//! Whether a header is one is the engine's judgement, and what is said of the slots its answer. Key length, payload
//! start, the count of the key's checksum, UUID and names are returned by no call: the binding reads them itself.
use crate::slots::{Slot, SlotDetails};
use crate::writes::ENTRY;
use crate::{Hash, Profile, Refusal};

/// Bytes of a sector and of a payload unit.
pub const SECTOR: usize = 512;
/// How many key slots a drive has.
pub const SLOTS: u8 = 8;
/// Bytes of the header.
pub const HEADER: usize = 592;
/// The first bytes of every LUKS drive.
pub const MAGIC: [u8; 6] = *b"LUKS\xba\xbe";
/// Most stripes that a key slot may have.
pub const MOST_STRIPES: u32 = 4000;

const UUID: std::ops::Range<usize> = 168..208;
// The sectors that hold the header: 0 and 1.
const HEADER_SECTORS: usize = 2;

/// What a header says. There is one only of an image whose header passes the engine's check.
#[derive(Clone, Copy, Debug, PartialEq, Eq)]
#[non_exhaustive]
pub struct Header {
    /// Where the payload starts, in sectors of the image.
    pub payload_start: u32,
    /// Length of the master key.
    pub key_bytes: u32,
    /// Cipher, hash and key length.
    pub profile: Profile,
    /// Iterations of the key's checksum.
    pub checksum_count: u32,
    uuid: [u8; UUID.end - UUID.start],
    slots: SlotDetails,
}

impl Header {
    /// Has the engine check the header of an image and say what its slots are, and reads the rest.
    pub fn of(image: &[u8]) -> Result<Header, Refusal> {
        let slots = SlotDetails::of(image)?;
        // The engine has found a profile too, so there is one.
        let profile = Names::of(image).and_then(|names| names.profile()).ok_or(Refusal::NoProfile)?;
        let uuid = image[UUID].try_into().expect("a range of its length");
        let (payload_start, key_bytes) = (number_at(image, 104), number_at(image, 108));
        Ok(Header { payload_start, key_bytes, profile, checksum_count: number_at(image, 164), uuid, slots })
    }

    /// The slots, as the engine shows them.
    pub fn slots(&self) -> &SlotDetails {
        &self.slots
    }

    /// A slot, 1 to 8.
    pub fn slot(&self, number: u8) -> Option<&Slot> {
        self.slots.slot(number)
    }

    /// The UUID up to its first zero byte. It need not be text: no check looks at it.
    pub fn uuid(&self) -> &[u8] {
        text(&self.uuid)
    }

    /// How many random bytes an addition to the slot needs; 0 where there is no such slot.
    pub fn random_length(&self, slot: u8) -> usize {
        self.area_length(slot).saturating_sub(self.key_bytes as usize)
    }

    /// How many bytes the slot's area has, and so how much filler its revocation needs; 0 where there is no such slot.
    pub fn area_length(&self, slot: u8) -> usize {
        self.slot(slot).map_or(0, |slot| slot.stripes as usize * self.key_bytes as usize)
    }

    /// How long the list buffer of an addition to the slot, or of its revocation, must be: 516 bytes for each sector of the
    /// area and for the two sectors of the header. 0 where there is no such slot.
    pub fn list_length(&self, slot: u8) -> usize {
        self.slot(slot).map_or(0, |_| (self.area_length(slot).div_ceil(SECTOR) + HEADER_SECTORS) * ENTRY)
    }

    /// How long the list buffer of a change must be: as long as those of both slots, whose stripes may differ.
    pub fn change_list_length(&self, from: u8, to: u8) -> usize {
        self.list_length(from) + self.list_length(to)
    }

    /// How many HMAC values a test of a key makes: its checksum is one block of PBKDF2.
    pub fn checksum_values(&self) -> u64 {
        self.checksum_count.into()
    }

    /// How many HMAC values the derivation of a slot's key makes with this count. An accepted addition makes those of the checksum
    /// and these, an accepted change those of the first slot's trial and these.
    pub fn derivation_values(&self, count: u32) -> u64 {
        self.profile.derivation_values(count)
    }

    /// How many HMAC values a trial of the slot makes, whether it opens or not: a derivation with its count, and a checksum. 0
    /// where the slot is disabled, or there is none: then nothing is tried.
    pub fn trial_values(&self, slot: u8) -> u64 {
        let enabled = self.slot(slot).filter(|slot| slot.enabled);
        enabled.map_or(0, |slot| self.derivation_values(slot.count) + self.checksum_values())
    }

    /// How many HMAC values a search makes that finds nothing: those of the trials of all enabled slots. One that finds a slot
    /// makes no more.
    ///
    /// The largest sum of a header, eight slots with counts of 2^32 - 1 and keys of four blocks, is 171,798,691,800.
    pub fn search_values(&self) -> u64 {
        (1..=SLOTS).map(|slot| self.trial_values(slot)).sum()
    }
}

/// The names in a header as they stand there, each up to its first zero byte, and the length of the master key. Nothing
/// is checked: so it can be said what a header has that the engine refuses.
#[derive(Clone, Copy, Debug, PartialEq, Eq)]
#[non_exhaustive]
pub struct Names<'a> {
    pub cipher: &'a [u8],
    pub mode: &'a [u8],
    pub hash: &'a [u8],
    pub key_bytes: u32,
}

impl Names<'_> {
    /// Reads the names of an image that is long enough to hold a header.
    pub fn of(image: &[u8]) -> Option<Names<'_>> {
        let bytes = image.get(..HEADER)?;
        let name = |at: usize| text(&bytes[at..at + 32]);
        Some(Names { cipher: name(8), mode: name(40), hash: name(72), key_bytes: number_at(bytes, 108) })
    }

    /// The profile that has these names and this key length; nothing where there is none, which the engine refuses (4).
    pub fn profile(&self) -> Option<Profile> {
        let hash = Hash::named(std::str::from_utf8(self.hash).ok()?)?;
        let profile = Profile::of(hash, usize::try_from(self.key_bytes).ok()?);
        profile.filter(|_| self.cipher == b"aes" && self.mode == b"xts-plain64")
    }
}

// What stands before the first zero byte.
fn text(field: &[u8]) -> &[u8] {
    field.split(|&byte| byte == 0).next().unwrap_or_default()
}

fn number_at(bytes: &[u8], at: usize) -> u32 {
    u32::from_be_bytes([bytes[at], bytes[at + 1], bytes[at + 2], bytes[at + 3]])
}
