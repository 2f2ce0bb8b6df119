//! The list of sector writes of an accepted addition, change or revocation.
use crate::header::SECTOR;
use std::fmt;
use std::iter::Map;
use std::slice::Iter;

/// Bytes of a write in the list: the sector's number, four of them with the most significant first, and the sector.
pub(crate) const ENTRY: usize = 4 + SECTOR;

type Entry = [u8; ENTRY];

/// What an accepted addition, change or revocation has to write to the disk, in this order: the sectors of the slot's area
/// rising, then sector 1, then sector 0. A change has first the writes of its addition, then those of its revocation.
///
/// Carried out in full, it turns the image before the call into the one after. Where the power fails on the way, no other slot
/// is harmed, and an addition or a revocation, given again before any other call, ends the work or is refused with 15 since it is
/// done; of a change see [`Drive::change`](crate::Drive::change). It is proved of writes that come to the disk in this order. So
/// a host flushes the file first, since what a killed program has written before may still be in the system's cache; then it
/// carries out one [stage](SectorWrites::stages) after the other, and flushes each. Where a flush fails, what the disk holds is
/// known only when it is read anew, as after a restart.
///
/// ```
/// # use mivrozh::{Drive, FormatInput, Profile, Refusal, Secret, SlotInput};
/// # let (key, passphrase, salt) = (Secret::zeroed(32), Secret::zeroed(8), [0; 32]);
/// # let uuid = "6a2b1f0e-3c4d-4e5f-8a9b-0c1d2e3f4a5b";
/// # let mut image = vec![0; 1 << 20];
/// # Drive::over(&mut image).format(&FormatInput::new(Profile::Key256, &key, &salt, 1000, uuid).stripes(17)).result?;
/// # let random = [0; 16 * 32];
/// # let input = SlotInput::new(&passphrase, &salt, 1000, &random);
/// let mut disk = std::io::Cursor::new(image.clone()); // In earnest the file or device that the image came from.
/// let mut drive = Drive::over(&mut image);
/// let mut list = vec![0; drive.header()?.list_length(1)];
/// let writes = drive.add(1, &key, &input, &mut list).result?;
/// assert!(writes.into_iter().map(|write| write.sector).eq([8, 9, 1, 0]));
/// // Here a file is flushed to the disk, by `File::sync_data`, and below again after each stage.
/// for stage in writes.stages() {
///     for write in stage {
///         use std::io::{Seek, SeekFrom, Write};
///         disk.seek(SeekFrom::Start(write.offset())).and_then(|_| disk.write_all(write.bytes)).expect("a good disk");
///     }
///     // Here.
/// }
/// assert_eq!(disk.into_inner(), image);
/// # Ok::<(), Refusal>(())
/// ```
#[derive(Clone, Copy, PartialEq, Eq)]
#[must_use = "the image in memory has changed; what goes to the disk is here"]
pub struct SectorWrites<'a> {
    entries: &'a [Entry],
}

/// One write of a list.
#[derive(Clone, Copy, PartialEq, Eq)]
#[non_exhaustive]
pub struct SectorWrite<'a> {
    /// The number of the sector, counted from 0 at the start of the image.
    pub sector: u32,
    /// The bytes that it gets.
    pub bytes: &'a [u8; SECTOR],
}

impl<'a> SectorWrites<'a> {
    // Of a buffer that an accepted call has filled: a whole number of entries.
    pub(crate) fn of(list: &'a [u8]) -> SectorWrites<'a> {
        SectorWrites { entries: list.as_chunks().0 }
    }

    /// The writes in stages, each to be flushed to the disk before the next begins: all of an area, sector 1, sector 0. Those
    /// of an area may come to the disk in any order.
    pub fn stages(self) -> impl Iterator<Item = SectorWrites<'a>> {
        let of_area = |entry: &Entry| SectorWrite::of(entry).sector >= 2;
        self.entries.chunk_by(move |one, next| of_area(one) && of_area(next)).map(|entries| SectorWrites { entries })
    }
}

impl<'a> IntoIterator for SectorWrites<'a> {
    type Item = SectorWrite<'a>;
    type IntoIter = Map<Iter<'a, Entry>, fn(&'a Entry) -> SectorWrite<'a>>;

    fn into_iter(self) -> Self::IntoIter {
        self.entries.iter().map(SectorWrite::of)
    }
}

impl<'a> SectorWrite<'a> {
    fn of(entry: &'a Entry) -> SectorWrite<'a> {
        let (number, bytes) = entry.split_first_chunk().expect("an entry begins with a number");
        SectorWrite { sector: u32::from_be_bytes(*number), bytes: bytes.try_into().expect("a sector is the rest") }
    }

    /// Where the sector begins in the image, in bytes.
    pub fn offset(&self) -> u64 {
        u64::from(self.sector) * SECTOR as u64
    }
}

// What is printed has the numbers of the sectors and not their bytes.

impl fmt::Debug for SectorWrites<'_> {
    fn fmt(&self, f: &mut fmt::Formatter<'_>) -> fmt::Result {
        f.debug_list().entries(*self).finish()
    }
}

impl fmt::Debug for SectorWrite<'_> {
    fn fmt(&self, f: &mut fmt::Formatter<'_>) -> fmt::Result {
        f.debug_struct("SectorWrite").field("sector", &self.sector).finish_non_exhaustive()
    }
}
