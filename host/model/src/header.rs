//! The header of LUKS 1.2.2, figures 1 to 3: its fields, the profiles, the layout that format makes, and the header
//! check.

use crate::hash::Hash;
use crate::xts::SECTOR;

pub const HEADER: usize = 592;
pub const MAGIC: [u8; 6] = [0x4c, 0x55, 0x4b, 0x53, 0xba, 0xbe];
pub const VERSION: u16 = 1;
pub const ENABLED: u32 = 0x00ac71f3;
pub const DISABLED: u32 = 0x0000dead;
pub const MAX_STRIPES: u32 = 4000;
pub const SMALLEST_COUNT: u32 = 1000;
/// Format's payload start is a multiple of so many sectors: 02, Wish 4. Before that it was any, a multiple of 1.
pub const ALIGNMENT: u64 = 2048;

/// A row of the table of profiles. In all of them the cipher is aes, the mode xts-plain64, and the smallest count
/// `SMALLEST_COUNT`.
#[derive(Debug)]
pub struct Profile {
    pub number: u8,
    pub hash: Hash,
    pub key_bytes: usize,
}

pub const PROFILES: [Profile; 4] = [
    Profile { number: 1, hash: Hash::Sha1, key_bytes: 32 },
    Profile { number: 2, hash: Hash::Sha1, key_bytes: 64 },
    Profile { number: 3, hash: Hash::Sha256, key_bytes: 32 },
    Profile { number: 4, hash: Hash::Sha256, key_bytes: 64 },
];

impl Profile {
    /// The profile with this number.
    pub fn numbered(number: u8) -> Option<&'static Profile> {
        PROFILES.iter().find(|p| p.number == number)
    }

    /// Cipher name, cipher mode and hash.
    pub fn names(&self) -> [&'static str; 3] {
        ["aes", "xts-plain64", self.hash.name()]
    }
}

/// Offsets of the fields.
pub mod at {
    pub const MAGIC: usize = 0;
    pub const VERSION: usize = 6;
    pub const NAMES: [usize; 3] = [8, 40, 72];
    pub const PAYLOAD: usize = 104;
    pub const KEY_BYTES: usize = 108;
    pub const CHECKSUM: usize = 112;
    pub const SALT: usize = 132;
    pub const COUNT: usize = 164;
    pub const UUID: usize = 168;
    /// The record of slot k, and in a record:
    pub const fn slot(k: usize) -> usize {
        208 + 48 * (k - 1)
    }
    pub const STATE: usize = 0;
    pub const SLOT_COUNT: usize = 4;
    pub const SLOT_SALT: usize = 8;
    pub const START: usize = 40;
    pub const STRIPES: usize = 44;
}

#[derive(Clone, Debug, PartialEq)]
pub struct Slot {
    pub state: u32,
    pub count: u32,
    pub salt: [u8; 32],
    pub start: u32,
    pub stripes: u32,
}

#[derive(Clone, Debug)]
pub struct Header {
    pub magic: [u8; 6],
    pub version: u16,
    pub names: [[u8; 32]; 3],
    /// In sectors.
    pub payload: u32,
    pub key_bytes: u32,
    pub checksum: [u8; 20],
    pub salt: [u8; 32],
    pub count: u32,
    /// Slots 1 to 8 stand at 0 to 7.
    pub slots: [Slot; 8],
}

fn bytes<const N: usize>(from: &[u8], at: usize) -> [u8; N] {
    std::array::from_fn(|i| from[at + i])
}

fn number(from: &[u8], at: usize) -> u32 {
    u32::from_be_bytes(bytes(from, at))
}

pub fn put(image: &mut [u8], at: usize, bytes: &[u8]) {
    image[at..at + bytes.len()].copy_from_slice(bytes);
}

pub fn put_number(image: &mut [u8], at: usize, number: u32) {
    put(image, at, &number.to_be_bytes());
}

impl Header {
    /// The fields of an image's header. Of a shorter image, what is missing reads as zero; check 1 refuses such an
    /// image.
    pub fn read(image: &[u8]) -> Header {
        let mut h = [0u8; HEADER];
        let whole = image.len().min(HEADER);
        h[..whole].copy_from_slice(&image[..whole]);
        Header {
            magic: bytes(&h, at::MAGIC),
            version: u16::from_be_bytes(bytes(&h, at::VERSION)),
            names: at::NAMES.map(|at| bytes(&h, at)),
            payload: number(&h, at::PAYLOAD),
            key_bytes: number(&h, at::KEY_BYTES),
            checksum: bytes(&h, at::CHECKSUM),
            salt: bytes(&h, at::SALT),
            count: number(&h, at::COUNT),
            slots: std::array::from_fn(|i| Slot::read(&h, i + 1)),
        }
    }

    /// A slot by its number, 1 to 8.
    pub fn slot(&self, k: u8) -> Option<&Slot> {
        (1..=8).contains(&k).then(|| &self.slots[k as usize - 1])
    }

    /// The profile that has these names and this key length. Check 4 passes where there is one.
    pub fn profile(&self) -> Option<&'static Profile> {
        let named = |p: &Profile| self.names.iter().zip(p.names()).all(|(field, name)| is(field, name));
        PROFILES.iter().find(|p| named(p) && self.key_bytes as usize == p.key_bytes)
    }

    /// The hash that the hash field names, whatever the other fields say.
    pub fn hash(&self) -> Option<Hash> {
        Hash::ALL.into_iter().find(|hash| is(&self.names[2], hash.name()))
    }

    /// Check 5 passes.
    fn has_fair_records(&self) -> bool {
        self.count != 0
            && self.slots.iter().all(|s| {
                (s.state == ENABLED || s.state == DISABLED)
                    && (1..=MAX_STRIPES).contains(&s.stripes)
                    && !(s.enabled() && s.count == 0)
            })
    }

    /// Check 6 passes. Numbers are wide enough that nothing wraps.
    fn fits(&self, image_len: usize) -> bool {
        let payload = self.payload as u128 * SECTOR as u128;
        let areas: Vec<(u128, u128)> = self.slots.iter().map(|s| s.area(self.key_bytes)).collect();
        let inside = areas.iter().all(|(begin, end)| *begin >= 2 * SECTOR as u128 && *end <= payload);
        let apart = |i: usize, j: usize| areas[i].0.max(areas[j].0) >= areas[i].1.min(areas[j].1);
        payload <= image_len as u128 && inside && (0..8).all(|j| (0..j).all(|i| apart(i, j)))
    }

    /// The numbers of the header check and whether each refuses this image, in order.
    pub fn refusals(&self, image_len: usize) -> [(u8, bool); 6] {
        [
            (1, bad_length(image_len)),
            (2, self.magic != MAGIC),
            (3, self.version != VERSION),
            (4, self.profile().is_none()),
            (5, !self.has_fair_records()),
            (6, !self.fits(image_len)),
        ]
    }
}

impl Slot {
    fn read(header: &[u8], k: usize) -> Slot {
        let record = at::slot(k);
        Slot {
            state: number(header, record + at::STATE),
            count: number(header, record + at::SLOT_COUNT),
            salt: bytes(header, record + at::SLOT_SALT),
            start: number(header, record + at::START),
            stripes: number(header, record + at::STRIPES),
        }
    }

    pub fn enabled(&self) -> bool {
        self.state == ENABLED
    }

    /// Where the area's n x L bytes begin and end.
    pub fn area(&self, key_bytes: u32) -> (u128, u128) {
        let begin = self.start as u128 * SECTOR as u128;
        (begin, begin + self.stripes as u128 * key_bytes as u128)
    }

    pub fn write(&self, image: &mut [u8], k: usize) {
        let record = at::slot(k);
        put_number(image, record + at::STATE, self.state);
        put_number(image, record + at::SLOT_COUNT, self.count);
        put(image, record + at::SLOT_SALT, &self.salt);
        put_number(image, record + at::START, self.start);
        put_number(image, record + at::STRIPES, self.stripes);
    }
}

/// Check 1 refuses.
pub fn bad_length(image_len: usize) -> bool {
    image_len < 2 * SECTOR || !image_len.is_multiple_of(SECTOR)
}

/// A text field's bytes before its first zero byte.
fn text(field: &[u8]) -> Option<&[u8]> {
    field.iter().position(|b| *b == 0).map(|end| &field[..end])
}

/// The field holds this text.
fn is(field: &[u8], name: &str) -> bool {
    text(field) == Some(name.as_bytes())
}

/// Where format puts the eight areas and the payload, in sectors: each area on a multiple of 8, the payload on one of
/// `alignment`.
pub fn layout(stripes: u32, key_length: usize, alignment: u64) -> ([u64; 8], u64) {
    let sectors = stripes as u64 * key_length as u64 / SECTOR as u64 + 1;
    let mut next = 2u64;
    let starts = std::array::from_fn(|_| {
        let start = next.next_multiple_of(8);
        next = start + sectors;
        start
    });
    (starts, next.next_multiple_of(alignment))
}

#[cfg(test)]
mod tests {
    use super::*;

    #[test]
    fn figures() {
        assert_eq!(layout(4000, 32, 1), ([8, 264, 520, 776, 1032, 1288, 1544, 1800], 2051));
        assert_eq!(layout(4000, 64, 1), ([8, 512, 1016, 1520, 2024, 2528, 3032, 3536], 4037));
        assert_eq!([1, 15, 16].map(|n| layout(n, 32, 1).1), [65, 65, 66]);
    }

    /// The areas stay where they were, and the payload start is rounded up.
    #[test]
    fn figures_of_payloads_on_a_mebibyte() {
        let starts = |numbers: [u32; 6], length| numbers.map(|n| layout(n, length, ALIGNMENT).1);
        assert_eq!(starts([1, 15, 16, 3967, 3968, 4000], 32), [2048, 2048, 2048, 2048, 4096, 4096]);
        assert_eq!(starts([1, 15, 16, 1983, 1984, 4000], 64), [2048, 2048, 2048, 2048, 4096, 4096]);
        for (stripes, length) in [(1, 32), (15, 32), (3967, 32), (4000, 32), (1983, 64), (4000, 64)] {
            assert_eq!(layout(stripes, length, ALIGNMENT).0, layout(stripes, length, 1).0);
        }
    }

    #[test]
    fn format_gives_two_starts_only() {
        for length in [32, 64] {
            let mut starts: Vec<u64> = (1..=MAX_STRIPES).map(|n| layout(n, length, ALIGNMENT).1).collect();
            starts.dedup();
            assert_eq!(starts, [2048, 4096]);
        }
    }

    #[test]
    fn profiles_by_number_and_by_header() {
        let numbers = |p: &Profile| (p.number, p.names()[2], p.key_bytes);
        let all = [1, 2, 3, 4].map(|n| numbers(Profile::numbered(n).expect("a profile")));
        assert_eq!(all, [(1, "sha1", 32), (2, "sha1", 64), (3, "sha256", 32), (4, "sha256", 64)]);
        assert!([0, 5, 255].iter().all(|n| Profile::numbered(*n).is_none()));
        let mut image = [0; HEADER];
        for (hash, key_bytes, number) in [("sha1", 64, Some(2)), ("sha256", 32, Some(3)), ("sha2", 32, None)] {
            for (at, name) in at::NAMES.into_iter().zip(["aes", "xts-plain64", hash]) {
                put(&mut image, at, &[0; 32]);
                put(&mut image, at, name.as_bytes());
            }
            put_number(&mut image, at::KEY_BYTES, key_bytes);
            assert_eq!(Header::read(&image).profile().map(|p| p.number), number);
        }
    }

    #[test]
    fn a_text_ends_at_its_first_zero_byte() {
        assert_eq!(text(b"aes\0later\0"), Some(&b"aes"[..]));
        assert_eq!(text(b"aes"), None);
    }
}
