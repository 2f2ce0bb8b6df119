//! The list of sector writes that an accepted add, change or revoke gives in a lent buffer, and what a cut leaves of it: 02,
//! Wish 5.

use crate::header::Slot;
use crate::xts::SECTOR;

/// Bytes of a write in the buffer: the sector's number and the sector.
pub const ENTRY: usize = 4 + SECTOR;

/// A sector of the image and the bytes that it gets.
#[derive(Clone, Debug, PartialEq)]
pub struct SectorWrite {
    pub sector: u32,
    pub bytes: Vec<u8>,
}

/// How many sectors hold the n x L bytes of a slot's area.
pub fn area_sectors(slot: &Slot, key_bytes: u32) -> u128 {
    (slot.stripes as u128 * key_bytes as u128).div_ceil(SECTOR as u128)
}

/// How many bytes the list of the work on a slot has.
pub fn length(slot: &Slot, key_bytes: u32) -> u128 {
    (area_sectors(slot, key_bytes) + 2) * ENTRY as u128
}

/// The work on a slot, by the image after it: the sectors of the area's n x L bytes rising, then sector 1, then sector 0. The
/// last sector of the area is given whole.
pub fn of_slot(image: &[u8], slot: &Slot, key_bytes: u32) -> Vec<SectorWrite> {
    let area = (slot.start..).take(area_sectors(slot, key_bytes) as usize);
    area.chain([1, 0]).map(|sector| of_sector(image, sector)).collect()
}

fn of_sector(image: &[u8], sector: u32) -> SectorWrite {
    let begin = sector as usize * SECTOR;
    SectorWrite { sector, bytes: image[begin..begin + SECTOR].to_vec() }
}

/// The list as it stands in the buffer: each number as four big-endian bytes, then the sector's 512 bytes.
pub fn encoded(list: &[SectorWrite]) -> Vec<u8> {
    list.iter().flat_map(|write| write.sector.to_be_bytes().into_iter().chain(write.bytes.iter().copied())).collect()
}

/// The list that stands in a filled buffer.
pub fn decoded(buffer: &[u8]) -> Vec<SectorWrite> {
    let entry = |entry: &[u8]| {
        let (number, bytes) = entry.split_at(4);
        SectorWrite { sector: u32::from_be_bytes([number[0], number[1], number[2], number[3]]), bytes: bytes.to_vec() }
    };
    buffer.chunks_exact(ENTRY).map(entry).collect()
}

/// Carries out some writes, one after the other.
pub fn carry_out<'a>(image: &mut [u8], writes: impl IntoIterator<Item = &'a SectorWrite>) {
    for write in writes {
        let begin = write.sector as usize * SECTOR;
        image[begin..begin + SECTOR].copy_from_slice(&write.bytes);
    }
}

#[cfg(test)]
mod tests {
    use super::*;
    use crate::calls::{Call, Model};
    use crate::header::{Header, DISABLED};

    fn slot(start: u32, stripes: u32) -> Slot {
        Slot { state: DISABLED, count: 0, salt: [0; 32], start, stripes }
    }

    /// L 32: areas of 1, 16, 17 and 4,000 stripes have 1, 1, 2 and 250 sectors; a list of 4,000 has 130,032 bytes.
    #[test]
    fn figures_of_lengths() {
        assert_eq!([1, 16, 17, 4000].map(|n| area_sectors(&slot(8, n), 32)), [1, 1, 2, 250]);
        assert_eq!(length(&slot(8, 4000), 32), 130_032);
        assert_eq!(length(&slot(8, 1), 32), 3 * 516);
    }

    #[test]
    fn an_entry_is_a_big_endian_number_and_a_sector() {
        let image: Vec<u8> = (0..4 * SECTOR).map(|at| (at / SECTOR) as u8).collect();
        let list = of_slot(&image, &slot(2, 17), 32);
        assert_eq!(list.iter().map(|write| write.sector).collect::<Vec<_>>(), [2, 3, 1, 0]);
        let buffer = encoded(&list);
        assert_eq!(buffer.len() as u128, length(&slot(2, 17), 32));
        assert_eq!((&buffer[..4], &buffer[4..ENTRY]), (&[0, 0, 0, 2][..], &[2; SECTOR][..]));
        assert_eq!((&buffer[ENTRY..ENTRY + 4], buffer[ENTRY + 4]), (&[0, 0, 0, 3][..], 3));
        assert_eq!(decoded(&buffer), list);
        let high = SectorWrite { sector: 0x0102_0304, bytes: vec![9; SECTOR] };
        assert_eq!(encoded(&[high])[..5], [1, 2, 3, 4, 9]);
    }

    /// A drive of one stripe a slot with a passphrase in this slot, and the numbers of its add's list.
    fn added(k: u8) -> (Model, Vec<u8>, Vec<u32>) {
        let (mut model, uuid, key) = (Model::default(), vec![b'u'; 36], vec![1; 32]);
        let format = Call::Format { profile: 1, stripes: 1, key: key.clone(), salt: [2; 32], count: 1000, uuid };
        let drive = model.step(&vec![9; 2048 * SECTOR], &format).image;
        let (random, list) = (vec![], vec![7; 3 * ENTRY]);
        let add = Call::Add { slot: k, key, passphrase: vec![5], salt: [3; 32], count: 1000, random, list };
        let out = model.step(&drive, &add);
        let mut carried = drive;
        carry_out(&mut carried, &decoded(&out.buffer));
        assert!(carried == out.image, "the list turns the image before into the one after");
        let numbers = decoded(&out.buffer).iter().map(|write| write.sector).collect();
        (model, out.image, numbers)
    }

    /// n 1: an add in slot 1 gives 8, 1, 0, one in slot 8 gives 64, 1, 0; a change of 8 to 7 gives 56, 1, 0, 64, 1, 0.
    #[test]
    fn figures_of_numbers() {
        assert_eq!(added(1).2, [8, 1, 0]);
        let (mut model, drive, numbers) = added(8);
        assert_eq!(numbers, [64, 1, 0]);
        let (random, filler, list) = (vec![], vec![6; 32], vec![7; 6 * ENTRY]);
        let (salt, count) = ([4; 32], 1000);
        let change = Call::Change { from: 8, old: vec![5], to: 7, new: vec![6], salt, count, random, filler, list };
        let out = model.step(&drive, &change);
        let writes = decoded(&out.buffer);
        assert_eq!(writes.iter().map(|write| write.sector).collect::<Vec<_>>(), [56, 1, 0, 64, 1, 0]);
        let (mut between, mut after) = (drive.clone(), drive);
        carry_out(&mut between, &writes[..3]);
        carry_out(&mut after, &writes);
        assert!(after == out.image);
        let enabled = |image: &[u8]| Header::read(image).slots.map(|slot| slot.enabled());
        assert_eq!(enabled(&between)[6..], [true, true], "the add's half leaves the first slot as it was");
        assert_eq!(enabled(&after)[6..], [true, false]);
    }
}
