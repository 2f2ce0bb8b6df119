//! Drives that the tool makes in memory: to measure this machine by, to have a key's checksum from, and to see where a payload
//! starts.
use mivrozh::header::{Header, SECTOR};
use mivrozh::{Drive, FormatInput, Profile, Refusal, Secret};
use std::ops::Range;

/// The least count that the engine writes.
pub const LEAST_COUNT: u32 = 1000;

// Where a header has the key's checksum, its salt and its count.
const CHECKSUM: Range<usize> = 112..168;
// More than stands before any payload. Of so much memory only what is written takes room.
const AMPLE: usize = 16 << 20;
const UUID: &str = "00000000-0000-0000-0000-000000000000";

/// What such a drive is made of, with one stripe: this key, and this checksum count.
pub fn input(profile: Profile, key: &Secret, count: u32) -> FormatInput<'_> {
    FormatInput::new(profile, key, &[0; 32], count, UUID).stripes(1)
}

/// A drive with this key, the least checksum count and no passphrase.
pub fn drive(profile: Profile, key: &Secret, stripes: u32) -> Result<Vec<u8>, Refusal> {
    let mut image = vec![0; AMPLE];
    Drive::over(&mut image[..]).format(&input(profile, key, LEAST_COUNT).stripes(stripes)).result?;
    Ok(image)
}

/// How many bytes stand before the payload of a drive that is so made. Where that starts is the engine's to say, so it makes
/// one.
pub fn before_payload(profile: Profile, stripes: u32) -> Result<usize, Refusal> {
    let image = drive(profile, &Secret::zeroed(profile.key_bytes()), stripes)?;
    Ok(Header::of(&image)?.payload_start as usize * SECTOR)
}

/// The checksum of a key at the least count, with its salt and that count, as a header has them.
pub struct QuickChecksum([u8; CHECKSUM.end - CHECKSUM.start]);

impl QuickChecksum {
    /// Of the key of this drive, with its hash.
    pub fn of(image: &[u8], key: &Secret) -> Result<QuickChecksum, Refusal> {
        let quick = drive(Header::of(image)?.profile, key, 1)?;
        Ok(QuickChecksum(std::array::from_fn(|i| quick[CHECKSUM.start + i])))
    }

    /// Gives it to a header of that drive in place of its own.
    pub fn put(&self, header: &mut [u8]) {
        header[CHECKSUM].copy_from_slice(&self.0);
    }
}

#[cfg(test)]
mod tests {
    use super::*;
    use mivrozh::{PayloadUnit, SlotInput};

    #[test]
    fn a_payload_starts_after_one_mebibyte_or_two() {
        let starts = |stripes| [Profile::Key256, Profile::Key512].map(|profile| before_payload(profile, stripes));
        assert_eq!(starts(1), [Ok(1 << 20); 2]);
        assert_eq!(starts(1983), [Ok(1 << 20); 2]);
        assert_eq!(starts(1984), [Ok(1 << 20), Ok(2 << 20)]);
        assert_eq!(starts(3967), [Ok(1 << 20), Ok(2 << 20)]);
        assert_eq!(starts(3968), [Ok(2 << 20); 2]);
        assert_eq!(starts(4001), [Err(Refusal::BadStripes); 2]);
    }

    // A drive whose checksum takes long: with the quick one the same key is right, and another wrong.
    #[test]
    fn a_quick_checksum_is_the_same_keys() {
        for &profile in Profile::ALL {
            let (key, other) = (Secret::from(vec![7; profile.key_bytes()]), Secret::from(vec![8; profile.key_bytes()]));
            let mut image = vec![0; before_payload(profile, 1).expect("a drive") + 3 * SECTOR];
            let mut drive = Drive::over(&mut image[..]);
            drive.format(&FormatInput::new(profile, &key, &[3; 32], 5000, UUID).stripes(1)).result.expect("a drive");
            let mut list = vec![0; drive.header().expect("a header").list_length(1)];
            let _ = drive
                .add(1, &key, &SlotInput::new(&other, &[4; 32], 1000, &[]), &mut list)
                .result
                .expect("a passphrase");
            let before = image.clone();
            assert_eq!(Header::of(&image).map(|header| header.profile), Ok(profile));
            QuickChecksum::of(&image, &key).expect("a checksum").put(&mut image);
            assert_ne!(image[CHECKSUM], before[CHECKSUM]);
            assert_eq!((&image[..112], &image[168..]), (&before[..112], &before[168..]), "nothing else is changed");
            assert_eq!(image[164..168], LEAST_COUNT.to_be_bytes());
            let (mut quick, mut slow) = ([0; 512], [1; 512]);
            let drive = Drive::over(&image[..]);
            drive.read(&key, PayloadUnit(2), 1, &mut quick).result.expect("a unit");
            assert_eq!(drive.read(&other, PayloadUnit(2), 1, &mut slow).result, Err(Refusal::WrongKey));
            Drive::over(&before[..]).read(&key, PayloadUnit(2), 1, &mut slow).result.expect("a unit");
            assert_eq!(quick, slow);
        }
    }
}
