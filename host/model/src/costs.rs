//! What 02's Wish 6 says of the numbers of HMAC values, as sums over header and arguments. The calls of this model count what
//! they make; `lists` holds the library against both.

use crate::calls::Call;
use crate::hash::Hash;
use crate::header::{Header, Profile, Slot};

/// "Deriving m bytes with count c and digest length D makes c x m / D of them, the quotient rounded up before the product."
pub fn derivation(hash: Hash, count: u32, length: usize) -> u64 {
    u64::from(count) * length.div_ceil(hash.size()) as u64
}

/// A checksum of a key has 20 bytes.
fn checksum(hash: Hash, count: u32) -> u64 {
    derivation(hash, count, 20)
}

/// "A trial of one slot costs the slot's derivation and one checksum."
fn trial(header: &Header, hash: Hash, slot: &Slot) -> u64 {
    derivation(hash, slot.count, header.key_bytes as usize) + checksum(hash, header.count)
}

/// The sum of the trials of the enabled slots up to this one, from 1 to 8.
pub fn trials(header: &Header, last: u8) -> u64 {
    let Some(hash) = header.hash() else { return 0 };
    let enabled = header.slots[..last as usize].iter().filter(|slot| slot.enabled());
    enabled.map(|slot| trial(header, hash, slot)).sum()
}

/// "Each slot that a call tries costs one trial, an accepted format and each given key that 17 tests one checksum, an accepted
/// add or change one derivation more, all else 0." By the header before the call, the number that it gave and the slot that it
/// opened.
pub fn said(header: &Header, call: &Call, number: u8, opened: u8) -> u64 {
    if let (Call::Format { profile, count, .. }, 0) = (call, number) {
        return Profile::numbered(*profile).map_or(0, |profile| checksum(profile.hash, *count));
    }
    let (accepted, Some(hash)) = (number == 0, header.hash()) else { return 0 };
    if !accepted && number != 17 {
        return 0;
    }
    let of_slot = |slot: u8| header.slot(slot).map_or(0, |slot| trial(header, hash, slot));
    let more = |count: u32| if accepted { derivation(hash, count, header.key_bytes as usize) } else { 0 };
    match call {
        Call::Add { count, .. } => checksum(hash, header.count) + more(*count),
        Call::OpenSlot { slot, .. } => of_slot(*slot),
        Call::Open { .. } => trials(header, if accepted { opened } else { 8 }),
        Call::Change { from, count, .. } => of_slot(*from) + more(*count),
        Call::Read { .. } | Call::Write { .. } => checksum(hash, header.count),
        Call::Format { .. } | Call::Revoke { .. } => 0,
    }
}

#[cfg(test)]
mod tests {
    use super::*;
    use crate::writes::ENTRY;
    use crate::Model;

    #[test]
    fn figures() {
        let figures = [(20, 1000), (32, 2000), (64, 4000)].map(|(length, values)| (Hash::Sha1, 1000, length, values));
        let others = [(32, 1000), (64, 2000)].map(|(length, values)| (Hash::Sha256, 1000, length, values));
        for (hash, count, length, values) in figures.into_iter().chain(others).chain([(Hash::Sha1, 1001, 32, 2002)]) {
            assert_eq!(derivation(hash, count, length), values, "{hash:?}, {count}, {length}");
        }
        assert_eq!(derivation(Hash::Sha1, u32::MAX, 64), 17_179_869_180);
    }

    /// A drive of profile 1 whose slots 2 and 5 have counts of their own: each number by hand.
    #[test]
    fn a_life_in_numbers() {
        let (mut model, mut image) = (Model::default(), vec![0; 2049 * 512]);
        let (key, salt, list) = (vec![1; 32], [2; 32], vec![0; 3 * ENTRY]);
        let mut makes = |call: Call| {
            let (header, out) = (Header::read(&image), model.step(&image, &call));
            assert_eq!(out.values, said(&header, &call, out.number, out.opened[0]), "{call:?}");
            image = out.image;
            (out.number, out.values)
        };
        let (uuid, profile) = (vec![b'u'; 36], 1);
        let format = Call::Format { profile, stripes: 1, key: key.clone(), salt, count: 1003, uuid };
        assert_eq!(makes(format), (0, 1003));
        let add = |slot: u8, count: u32, key: &[u8]| {
            let (key, passphrase, random, list) = (key.to_vec(), vec![slot], vec![], list.clone());
            Call::Add { slot, key, passphrase, salt, count, random, list }
        };
        assert_eq!(makes(add(2, 1000, &[7; 32])), (17, 1003));
        assert_eq!(makes(add(2, 999, &key)), (10, 0));
        assert_eq!(makes(add(2, 1000, &key)), (0, 3003));
        assert_eq!(makes(add(5, 1001, &key)), (0, 3005));
        assert_eq!(makes(Call::OpenSlot { slot: 5, passphrase: vec![9] }), (17, 3005));
        assert_eq!(makes(Call::OpenSlot { slot: 5, passphrase: vec![5] }), (0, 3005));
        assert_eq!(makes(Call::OpenSlot { slot: 4, passphrase: vec![5] }), (15, 0));
        assert_eq!(makes(Call::Open { passphrase: vec![2] }), (0, 3003));
        assert_eq!(makes(Call::Open { passphrase: vec![5] }), (0, 6008));
        assert_eq!(makes(Call::Open { passphrase: vec![9] }), (17, 6008));
        assert_eq!(makes(Call::Open { passphrase: vec![] }), (14, 0));
        let change = |old: u8| {
            let (old, new, random, filler, list) = (vec![old], vec![4], vec![], vec![3; 32], vec![0; 6 * ENTRY]);
            Call::Change { from: 5, old, to: 1, new, salt, count: 1002, random, filler, list }
        };
        assert_eq!(makes(change(9)), (17, 3005));
        assert_eq!(makes(change(5)), (0, 5009));
        assert_eq!(makes(Call::Revoke { slot: 2, filler: vec![3; 32], list: list.clone() }), (0, 0));
        let read = |key: &[u8], units: u64| Call::Read { key: key.to_vec(), first: 0, units, buffer: vec![0; 512] };
        assert_eq!(makes(read(&key, 1)), (0, 1003));
        assert_eq!(makes(read(&[7; 32], 1)), (17, 1003));
        assert_eq!(makes(read(&key, 2)), (19, 0));
        assert_eq!(makes(Call::Write { key, first: 1, units: 0, buffer: vec![] }), (0, 1003));
    }
}
