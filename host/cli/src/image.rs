//! An image file: opened, locked, and loaded into memory of this process. The engine works on that memory; the file changes
//! only by `write_new`, `carry_out` and `store`.
use crate::failure::{self, shown, Failure};
use crate::small::QuickChecksum;
use crate::system::{self, Memory};
use mivrozh::header::{Header, SECTOR};
use mivrozh::{Drive, SectorWrites};
use std::fs::{File, OpenOptions, TryLockError};
use std::io::{self, Seek, SeekFrom};
use std::ops::Range;
use std::os::unix::ffi::OsStrExt;
use std::os::unix::fs::{FileExt, FileTypeExt, MetadataExt, OpenOptionsExt};
use std::path::{Path, PathBuf};

// The header and what follows it up to the first key area that format makes.
const LEAD: usize = 8 * SECTOR;
// The sectors that hold the header.
const HEADER_SECTORS: usize = 2 * SECTOR;
// How many bytes of the file are compared with the memory at once.
const WINDOW: usize = 2048 * SECTOR;
// Of a block device: it is in use by nothing else that asks for this, such as a mounted file system.
const O_EXCL: i32 = 0o200;

#[derive(Clone, Copy, PartialEq)]
pub enum Purpose {
    /// What the header says, also of a drive whose key areas cannot be read any more.
    Looking,
    Reading,
    Writing,
}

pub struct ImageFile {
    path: PathBuf,
    file: File,
    // The header and the key areas as they were loaded and, after a call, as the engine has left them.
    memory: Memory,
    // The header's sectors as they were loaded.
    header: Vec<u8>,
}

impl ImageFile {
    /// Opens and locks a file or block device and loads its header and the key areas that the purpose needs. For writing, what
    /// was written to it before is on the disk by then.
    pub fn open(path: &Path, purpose: Purpose) -> Result<ImageFile, Failure> {
        let kind = path.metadata().map_err(|error| Failure::no_input(path, &error))?.file_type();
        if !(kind.is_file() || kind.is_block_device()) {
            let message = format!("{}: neither a file nor a block device; give a drive's image", shown(path));
            return Err(Failure::new(failure::NO_INPUT, message));
        }
        let writing = purpose == Purpose::Writing;
        let exclusive = if writing && kind.is_block_device() { O_EXCL } else { 0 };
        let file = OpenOptions::new().read(true).write(writing).custom_flags(exclusive).open(path);
        let mut file = file.map_err(|error| cannot_open(path, purpose, &error))?;
        lock(&file, path, purpose)?;
        if writing {
            not_attached(&file, path)?;
        }
        let length = length_of(&mut file).map_err(|error| Failure::no_input(path, &error))?;
        let mut image = ImageFile { path: path.into(), file, memory: memory(length, path)?, header: Vec::new() };
        if writing {
            image.flush()?;
        }
        image.load_header_and_areas(purpose)?;
        Ok(image)
    }

    pub fn drive(&mut self) -> Drive<&mut [u8]> {
        Drive::over(self.memory.bytes_mut())
    }

    /// The drive's bytes as far as they are loaded: the header and the key areas.
    pub fn bytes(&self) -> &[u8] {
        self.memory.bytes()
    }

    pub fn path(&self) -> &Path {
        &self.path
    }

    /// Whether this is the file that the metadata belongs to.
    pub fn is(&self, other: &std::fs::Metadata) -> bool {
        self.file.metadata().is_ok_and(|own| (own.dev(), own.ino()) == (other.dev(), other.ino()))
    }

    /// The file's own bytes from its start, whatever the engine has made of the memory.
    pub fn beginning(&self, length: usize) -> Result<Vec<u8>, Failure> {
        let mut bytes = vec![0; length];
        self.file.read_exact_at(&mut bytes, 0).map_err(|error| self.unreadable(&error))?;
        Ok(bytes)
    }

    /// Memory of the drive's length with its header and nothing else, for a thread that works on parts of the payload with
    /// the key that has opened the drive. The header has a checksum of that key that takes no time: each call derives it.
    pub fn for_transfers(&self, checksum: &QuickChecksum) -> Result<Memory, Failure> {
        let mut memory = memory(self.bytes().len(), &self.path)?;
        let lead = LEAD.min(self.bytes().len());
        memory.bytes_mut()[..lead].copy_from_slice(&self.bytes()[..lead]);
        checksum.put(memory.bytes_mut());
        Ok(memory)
    }

    /// Reads a part of the file into memory of the drive's length.
    pub fn load(&self, memory: &mut Memory, part: Range<usize>) -> Result<(), Failure> {
        let at = part.start as u64;
        self.file.read_exact_at(&mut memory.bytes_mut()[part], at).map_err(|error| self.unreadable(&error))
    }

    /// Writes a part of the payload to the file at once; `flush` brings it to the disk.
    pub fn store(&self, memory: &Memory, part: Range<usize>) -> Result<(), Failure> {
        self.check_header_in_file()?;
        let at = part.start as u64;
        self.file.write_all_at(&memory.bytes()[part], at).map_err(|error| self.unwritten(&error))
    }

    pub fn flush(&self) -> Result<(), Failure> {
        self.file.sync_data().map_err(|error| self.untaken(&error).with_advice("Then give the same command again"))
    }

    /// Writes a new drive up to its payload. The magic of what stood there goes first, and the new one comes last. So a cut
    /// leaves no header that is half old and half new, and no drive without a passphrase.
    pub fn write_new(&self, header: &Header) -> Result<(), Failure> {
        self.check_header_in_file()?;
        let (first, rest) = self.bytes()[..header.payload_start as usize * SECTOR].split_at(SECTOR);
        for (at, bytes) in [(0, &[0; SECTOR][..]), (SECTOR, rest), (0, first)] {
            write_changed(&self.file, at, bytes).map_err(|error| self.unwritten(&error))?;
            self.flush()?;
        }
        Ok(())
    }

    /// Carries out the engine's list of sector writes, one by one and all of them, each stage flushed to the disk before the
    /// next begins. Where that fails on the way, `advice` says how to end the work, by the number of stages that were flushed.
    /// What a read would give says nothing: it comes from the system's cache.
    pub fn carry_out(&self, writes: SectorWrites, advice: impl FnOnce(usize) -> String) -> Result<(), Failure> {
        self.check_header_in_file()?;
        self.write_stages(writes).map_err(|halt| match halt {
            Halt::Write(error, flushed) => {
                self.unwritten(&error).with_advice(format_args!("To end the work, {}", advice(flushed)))
            }
            Halt::Flush(error, flushed) => {
                self.untaken(&error).with_advice(format_args!("Then, to end the work, {}", advice(flushed)))
            }
        })
    }

    // What stands in the file is on the disk first, also what a run before has written that was killed.
    fn write_stages(&self, writes: SectorWrites) -> Result<(), Halt> {
        self.file.sync_data().map_err(|error| Halt::Flush(error, 0))?;
        for (flushed, stage) in writes.stages().enumerate() {
            for write in stage {
                let written = self.file.write_all_at(write.bytes, write.offset());
                written.map_err(|error| Halt::Write(error, flushed))?;
            }
            self.file.sync_data().map_err(|error| Halt::Flush(error, flushed))?;
        }
        Ok(())
    }

    // The part that the engine's checks and openings look at, and for writing what stands beside what is written. An
    // area lies within the image where the header passes the engine's check; of another nothing more is needed.
    fn load_header_and_areas(&mut self, purpose: Purpose) -> Result<(), Failure> {
        let lead = LEAD.min(self.bytes().len());
        self.load_own(0..lead)?;
        self.header = self.bytes()[..HEADER_SECTORS.min(lead)].to_vec();
        let Ok(header) = Header::of(self.bytes()) else { return Ok(()) };
        for (number, slot) in header.slots().iter() {
            let needed = match purpose {
                Purpose::Looking => false,
                Purpose::Reading => slot.enabled,
                Purpose::Writing => true,
            };
            if needed {
                let start = slot.start as usize * SECTOR;
                let end = start + header.area_length(number).next_multiple_of(SECTOR);
                self.load_own(start.max(lead)..end.max(lead))?;
            }
        }
        Ok(())
    }

    // From the disk, where nothing newer is on its way to it: after a flush that failed the cache may hold what the disk does
    // not.
    fn load_own(&mut self, part: Range<usize>) -> Result<(), Failure> {
        system::forget_cached(&self.file, &part);
        let at = part.start as u64;
        let read = self.file.read_exact_at(&mut self.memory.bytes_mut()[part], at);
        read.map_err(|error| self.unreadable(&error))
    }

    // Is the header in the file the one that was loaded? A program that keeps to no lock may have changed it.
    fn check_header_in_file(&self) -> Result<(), Failure> {
        let there = self.beginning(self.header.len())?;
        if there == self.header {
            return Ok(());
        }
        let message = format!(
            "{}: another program has changed its header meanwhile; see to that and try again",
            shown(&self.path)
        );
        Err(Failure::new(failure::BUSY, message))
    }

    fn unreadable(&self, error: &io::Error) -> Failure {
        let path = shown(&self.path);
        if error.kind() == io::ErrorKind::UnexpectedEof {
            let message = format!("{path}: another program has made it shorter; see to that and try again");
            return Failure::new(failure::INPUT_OUTPUT, message);
        }
        Failure::input_output(format_args!("{path}: it cannot be read"), error)
    }

    fn unwritten(&self, error: &io::Error) -> Failure {
        Failure::input_output(format_args!("{}: not everything could be written", shown(&self.path)), error)
    }

    // After a flush that failed the cache may show what was written, and the disk may have it, in part or not at all.
    fn untaken(&self, error: &io::Error) -> Failure {
        self.unwritten(error).with_advice(
            "The disk did not take what was written, and what it holds is known only after a restart: first restart the \
             machine, or unplug the disk and plug it in again, and revoke nothing before that",
        )
    }
}

// Where the carrying out of a list came to a halt: in a write or in a flush, after so many flushed stages.
enum Halt {
    Write(io::Error, usize),
    Flush(io::Error, usize),
}

fn memory(length: usize, path: &Path) -> Result<Memory, Failure> {
    Memory::zeros(length)
        .map_err(|error| Failure::input_output(format_args!("{}: no memory of its length", shown(path)), &error))
}

// Writes each sector that differs from the file's, in rising order.
fn write_changed(file: &File, at: usize, bytes: &[u8]) -> io::Result<()> {
    let mut there = vec![0; WINDOW.min(bytes.len())];
    for (window, place) in bytes.chunks(WINDOW).zip((at..).step_by(WINDOW)) {
        let there = &mut there[..window.len()];
        file.read_exact_at(there, place as u64)?;
        let sectors = window.chunks(SECTOR).zip(there.chunks(SECTOR)).zip((place..).step_by(SECTOR));
        for ((new, _), place) in sectors.filter(|((new, old), _)| new != old) {
            file.write_all_at(new, place as u64)?;
        }
    }
    Ok(())
}

fn cannot_open(path: &Path, purpose: Purpose, error: &io::Error) -> Failure {
    match purpose {
        _ if error.kind() == io::ErrorKind::ResourceBusy => {
            let message = format!(
                "{}: the device is in use, as by a mounted file system or an open drive; unmount or close that first",
                shown(path)
            );
            Failure::new(failure::BUSY, message)
        }
        Purpose::Looking | Purpose::Reading => Failure::no_input(path, error),
        Purpose::Writing => Failure::cannot_write(path, error),
    }
}

// Two locks: one that programs like this one see, and one that qemu sees. A file system without the second kind has the first.
fn lock(file: &File, path: &Path, purpose: Purpose) -> Result<(), Failure> {
    let (whole, by_range) = match purpose {
        Purpose::Looking | Purpose::Reading => (file.try_lock_shared(), system::lock_for_reading(file)),
        Purpose::Writing => (file.try_lock(), system::lock_for_writing(file)),
    };
    match whole {
        Err(TryLockError::Error(error)) => {
            Err(Failure::input_output(format_args!("{}: it cannot be locked", shown(path)), &error))
        }
        Ok(()) if by_range.unwrap_or(true) => Ok(()),
        Ok(()) | Err(TryLockError::WouldBlock) => {
            let message = format!("{}: another program is using it; wait until that has ended", shown(path));
            Err(Failure::new(failure::BUSY, message))
        }
    }
}

// A file behind a loop device may hold a mounted file system or an open drive, of which no lock of the file tells.
fn not_attached(file: &File, path: &Path) -> Result<(), Failure> {
    let Some(device) = loop_device(file) else { return Ok(()) };
    let message = format!(
        "{}: it is attached to {device}; detach it (losetup -d {device}), or give the device in its place",
        shown(path)
    );
    Err(Failure::new(failure::BUSY, message))
}

// The loop device that this file stands behind, as far as the system shows it.
fn loop_device(file: &File) -> Option<String> {
    let own = file.metadata().ok().filter(|own| own.is_file())?;
    let devices = Path::new("/sys/block").read_dir().ok()?.flatten();
    let is_behind = |device: &std::fs::DirEntry| {
        let name = std::fs::read(device.path().join("loop/backing_file")).unwrap_or_default();
        let name = Path::new(std::ffi::OsStr::from_bytes(name.strip_suffix(b"\n").unwrap_or(&name)));
        name.metadata().is_ok_and(|behind| (behind.dev(), behind.ino()) == (own.dev(), own.ino()))
    };
    let device = devices.into_iter().find(is_behind)?;
    Some(format!("/dev/{}", device.file_name().display()))
}

// A block device says 0 as its length, but its end can be found.
fn length_of(file: &mut File) -> io::Result<usize> {
    let length = file.seek(SeekFrom::End(0))?;
    usize::try_from(length).map_err(|_| io::Error::from(io::ErrorKind::FileTooLarge))
}
