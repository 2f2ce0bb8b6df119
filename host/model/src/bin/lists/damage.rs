//! Ways to violate each of the header's checks, one or more for each, and changes that look like damage and are none.

use crate::random::Random;
use model::hash::Hash;
use model::header::{at, put, put_number, Header, DISABLED, ENABLED};
use model::xts::SECTOR;

pub type Damage = fn(&mut Random, &mut Vec<u8>);

/// Number, name, and the way itself. The number is the first that a drive so damaged is refused by.
pub type Way = (u8, &'static str, Damage);

pub const WAYS: [Way; 35] = [
    (1, "an odd byte more", |r, image| image.extend(vec![7; r.range(1, 511)])),
    (1, "the last byte missing", |_, image| image.truncate(image.len() - 1)),
    (1, "an empty image", |_, image| image.clear()),
    (1, "one sector", |_, image| image.truncate(SECTOR)),
    (1, "below two sectors", |r, image| image.truncate(r.range(1, 1023))),
    (1, "a header and no more", |_, image| image.truncate(592)),
    (2, "a byte of the magic", |r, image| image[r.range(0, 5)] ^= r.range(1, 255) as u8),
    (3, "version 2", |_, image| image[7] = 2),
    (3, "version 0", |_, image| image[7] = 0),
    (3, "the version's first byte", |r, image| image[6] = r.range(1, 255) as u8),
    (4, "a byte of a name", |r, image| {
        let (at, length) = name(r, image);
        image[at + r.range(0, length - 1)] ^= r.range(1, 255) as u8;
    }),
    (4, "a name cut short", |r, image| {
        let (at, length) = name(r, image);
        image[at + r.range(0, length - 1)] = 0;
    }),
    (4, "a name gone on", |r, image| {
        let (at, length) = name(r, image);
        image[at + length] = r.range(1, 255) as u8;
    }),
    (4, "a name with no zero byte", |r, image| {
        let (at, length) = name(r, image);
        image[at + length..at + 32].fill(r.range(1, 255) as u8);
    }),
    (4, "a name in capitals", |r, image| {
        let (at, length) = name(r, image);
        image[at..at + length].make_ascii_uppercase();
    }),
    (4, "another hash that drives have", |r, image| {
        let other = r.pick(&["sha512\0", "sha224\0", "sha2\0", "sha\0", "sha2567\0", "ripemd160\0"]);
        put(image, at::NAMES[2], other.as_bytes());
    }),
    (4, "key bytes of no profile", |r, image| {
        let bytes = r.pick(&[0, 16, 31, 33, 48, 63, 65, 128, 0x20000000, u32::MAX]);
        put_number(image, at::KEY_BYTES, bytes);
    }),
    (5, "checksum count 0", |_, image| put_number(image, at::COUNT, 0)),
    (5, "a state of neither kind", |r, image| {
        let state = r.pick(&[0, 1, ENABLED + 1, DISABLED - 1, 0xdead0000, 0xf371ac00, u32::MAX]);
        put_number(image, record(r) + at::STATE, state);
    }),
    (5, "stripes 0", |r, image| put_number(image, record(r) + at::STRIPES, 0)),
    (5, "stripes 4,001", |r, image| put_number(image, record(r) + at::STRIPES, 4001)),
    (5, "stripes as many as can be written", |r, image| put_number(image, record(r) + at::STRIPES, u32::MAX)),
    (5, "enabled with count 0", |r, image| {
        let record = record(r);
        put_number(image, record + at::STATE, ENABLED);
        put_number(image, record + at::SLOT_COUNT, 0);
    }),
    (6, "a payload start one sector beyond the image", |_, image| {
        let sectors = (image.len() / SECTOR) as u32;
        put_number(image, at::PAYLOAD, sectors + 1);
    }),
    (6, "a payload start far beyond the image", |r, image| {
        put_number(image, at::PAYLOAD, r.pick(&[0x00800000, 0x01000000, u32::MAX]))
    }),
    (6, "an area in sector 0", |r, image| put_number(image, record(r) + at::START, 0)),
    (6, "an area in sector 1", |r, image| put_number(image, record(r) + at::START, 1)),
    (6, "an area that begins at the payload", |r, image| {
        let payload = Header::read(image).payload;
        put_number(image, record(r) + at::START, payload);
    }),
    (6, "an area that begins far beyond", |r, image| {
        put_number(image, record(r) + at::START, r.pick(&[0x00800000, 0x01000000, u32::MAX]))
    }),
    (6, "an area that passes the payload by bytes", |r, image| {
        let h = Header::read(image);
        let k = r.range(1, 8);
        put_number(image, at::slot(k) + at::START, h.payload.saturating_sub(1));
        put_number(image, at::slot(k) + at::STRIPES, stripes_in(SECTOR as u32, &h) + 1);
    }),
    (6, "a payload start one sector too early", |_, image| {
        let h = Header::read(image);
        let end = h.slots.iter().map(|s| s.area(h.key_bytes).1).max().expect("eight slots");
        put_number(image, at::PAYLOAD, ((end - 1) / SECTOR as u128) as u32);
    }),
    (6, "two areas at one start", |r, image| {
        let (k, other) = two_slots(r);
        let start = Header::read(image).slots[other - 1].start;
        put_number(image, at::slot(k) + at::START, start);
    }),
    (6, "an area's last stripe in another's first sector", |r, image| {
        let h = Header::read(image);
        let (k, other) = neighbours(r, &h);
        let gap = (h.slots[other].start - h.slots[k].start).saturating_mul(SECTOR as u32);
        put_number(image, at::slot(k + 1) + at::STRIPES, stripes_in(gap, &h).saturating_add(1));
    }),
    (6, "one area within another", |r, image| {
        let h = Header::read(image);
        let (k, other) = neighbours(r, &h);
        put_number(image, at::slot(k + 1) + at::STRIPES, 4000);
        put_number(image, at::slot(other + 1) + at::STRIPES, 1);
    }),
    (6, "payload start 0", |_, image| put_number(image, at::PAYLOAD, 0)),
];

/// Changes of a fair drive that no check refuses.
pub const FAIR: [(&str, Damage); 5] = [
    ("anything after a name's zero byte", |r, image| {
        let (at, length) = name(r, image);
        image[at + length + 1..at + 32].fill(0xff);
    }),
    ("any UUID", |_, image| image[at::UUID..at::UUID + 40].fill(0xff)),
    ("a payload at the image's end", |_, image| {
        let sectors = (image.len() / SECTOR) as u32;
        put_number(image, at::PAYLOAD, sectors);
    }),
    ("an area that ends at the payload", |_, image| {
        let h = Header::read(image);
        let end = image.len() / SECTOR + 1;
        image.resize((end + 3) * SECTOR, 0x5a);
        put_number(image, at::slot(8) + at::START, end as u32 - 1);
        put_number(image, at::slot(8) + at::STRIPES, SECTOR as u32 / h.key_bytes);
        put_number(image, at::PAYLOAD, end as u32);
    }),
    ("4,000 stripes, next to another area", |_, image| {
        let h = Header::read(image);
        let begin = image.len() / SECTOR;
        let sectors = 4000 * h.key_bytes as usize / SECTOR;
        image.resize((begin + sectors + 2) * SECTOR, 0x5a);
        put_number(image, at::slot(8) + at::START, begin as u32);
        put_number(image, at::slot(8) + at::STRIPES, 4000);
        put_number(image, at::PAYLOAD, (begin + sectors) as u32);
    }),
];

/// Where a name stands and how long it is: 3 bytes ("aes") to 11 ("xts-plain64"), also where it was damaged before.
fn name(r: &mut Random, image: &[u8]) -> (usize, usize) {
    let at = r.pick(&at::NAMES);
    let length = image[at..at + 32].iter().position(|b| *b == 0).unwrap_or(0);
    (at, length.clamp(3, 11))
}

/// How many stripes so many bytes have room for, also where the key length was damaged before and is 0.
fn stripes_in(bytes: u32, h: &Header) -> u32 {
    bytes / h.key_bytes.max(1)
}

fn record(r: &mut Random) -> usize {
    at::slot(r.range(1, 8))
}

fn two_slots(r: &mut Random) -> (usize, usize) {
    let k = r.range(1, 8);
    (k, 1 + (k + r.range(0, 6)) % 8)
}

/// Two slots, counted from 0, of which the second's area is the next after the first's.
fn neighbours(r: &mut Random, h: &Header) -> (usize, usize) {
    let mut order: Vec<usize> = (0..8).collect();
    order.sort_by_key(|i| h.slots[*i].start);
    let i = r.range(0, 6);
    (order[i], order[i + 1])
}

/// The header names the other hash that there is. No check of the header refuses that, and nothing has the checksum then.
pub fn other_hash(image: &mut [u8]) {
    let other = if Header::read(image).hash() == Some(Hash::Sha1) { Hash::Sha256 } else { Hash::Sha1 };
    put(image, at::NAMES[2], other.name().as_bytes());
    image[at::NAMES[2] + other.name().len()] = 0;
}

/// Keeps a damaged image's derivations short: large counts that would be used become small ones.
pub fn calm(image: &mut [u8]) {
    if image.len() < 592 {
        return;
    }
    let h = Header::read(image);
    if h.count > 1500 {
        put_number(image, at::COUNT, 2);
    }
    for (k, slot) in (1..).zip(&h.slots) {
        if slot.enabled() && slot.count > 1500 {
            put_number(image, at::slot(k) + at::SLOT_COUNT, 3);
        }
    }
}
