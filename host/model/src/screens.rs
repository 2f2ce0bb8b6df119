//! The two screens for the slots: the header check, then eight entries. 02, Wish 2.

use crate::header::Header;

/// Whether each slot, 1 to 8, is enabled: 1 or 0. Zeros after a header refusal.
#[derive(Clone, Debug, PartialEq)]
pub struct First {
    /// 0, or the number of the refusal.
    pub number: u8,
    pub enabled: [u8; 8],
}

/// Beside that count, area start and stripes as the header has them, of disabled slots too. Zeros after a header
/// refusal.
#[derive(Clone, Debug, PartialEq)]
pub struct Second {
    pub number: u8,
    pub enabled: [u8; 8],
    pub counts: [u32; 8],
    pub starts: [u32; 8],
    pub stripes: [u32; 8],
}

/// The header, or the first number that refuses it.
fn checked(image: &[u8]) -> Result<Header, u8> {
    let header = Header::read(image);
    match header.refusals(image.len()).into_iter().find(|(_, refused)| *refused) {
        Some((number, _)) => Err(number),
        None => Ok(header),
    }
}

pub fn first(image: &[u8]) -> First {
    match checked(image) {
        Ok(h) => First { number: 0, enabled: h.slots.map(|s| s.enabled() as u8) },
        Err(number) => First { number, enabled: [0; 8] },
    }
}

pub fn second(image: &[u8]) -> Second {
    match checked(image) {
        Ok(h) => Second {
            number: 0,
            enabled: h.slots.each_ref().map(|s| s.enabled() as u8),
            counts: h.slots.each_ref().map(|s| s.count),
            starts: h.slots.each_ref().map(|s| s.start),
            stripes: h.slots.each_ref().map(|s| s.stripes),
        },
        Err(number) => Second { number, enabled: [0; 8], counts: [0; 8], starts: [0; 8], stripes: [0; 8] },
    }
}

#[cfg(test)]
mod tests {
    use super::*;
    use crate::header::{at, put_number};
    use crate::writes::ENTRY;
    use crate::xts::SECTOR;
    use crate::{Call, Model};

    /// A new drive with 16 stripes and a key of 32 bytes: areas of two sectors, from 8 on every 8.
    fn fresh(model: &mut Model) -> Vec<u8> {
        let uuid = vec![b'u'; 36];
        let call = Call::Format { profile: 1, stripes: 16, key: vec![5; 32], salt: [6; 32], count: 1000, uuid };
        let out = model.step(&vec![0; 2048 * SECTOR], &call);
        assert_eq!(out.number, 0);
        out.image
    }

    /// A drive with one passphrase, in slot 3, with count 1,003.
    fn one_added() -> Vec<u8> {
        let mut model = Model::default();
        let image = fresh(&mut model);
        let (key, passphrase, random) = (vec![5; 32], b"one".to_vec(), vec![7; 15 * 32]);
        let (salt, count, list) = ([8; 32], 1003, vec![0; 3 * ENTRY]);
        let out = model.step(&image, &Call::Add { slot: 3, key, passphrase, salt, count, random, list });
        assert_eq!(out.number, 0);
        out.image
    }

    const STARTS: [u32; 8] = [8, 16, 24, 32, 40, 48, 56, 64];

    #[test]
    fn a_fresh_drive() {
        let image = fresh(&mut Model::default());
        assert_eq!(first(&image), First { number: 0, enabled: [0; 8] });
        let shown = Second { number: 0, enabled: [0; 8], counts: [0; 8], starts: STARTS, stripes: [16; 8] };
        assert_eq!(second(&image), shown);
    }

    #[test]
    fn after_one_add() {
        let (image, enabled) = (one_added(), [0, 0, 1, 0, 0, 0, 0, 0]);
        assert_eq!(first(&image), First { number: 0, enabled });
        let counts = [0, 0, 1003, 0, 0, 0, 0, 0];
        assert_eq!(second(&image), Second { number: 0, enabled, counts, starts: STARTS, stripes: [16; 8] });
    }

    #[test]
    fn zeros_after_refusal_2() {
        let mut image = one_added();
        image[at::MAGIC] ^= 1;
        let zeros = [0; 8];
        assert_eq!(first(&image), First { number: 2, enabled: [0; 8] });
        assert_eq!(second(&image), Second { number: 2, enabled: [0; 8], counts: zeros, starts: zeros, stripes: zeros });
    }

    #[test]
    fn a_disabled_slots_numbers() {
        let mut image = one_added();
        put_number(&mut image, at::slot(8) + at::SLOT_COUNT, 77);
        put_number(&mut image, at::slot(8) + at::STRIPES, 2);
        let (enabled, stripes) = ([0, 0, 1, 0, 0, 0, 0, 0], [16, 16, 16, 16, 16, 16, 16, 2]);
        assert_eq!(first(&image).enabled, enabled);
        let counts = [0, 0, 1003, 0, 0, 0, 0, 77];
        assert_eq!(second(&image), Second { number: 0, enabled, counts, starts: STARTS, stripes });
    }
}
