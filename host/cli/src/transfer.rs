//! Moving payload units between the drive and files: chunk by chunk, on all processors, with progress at a terminal.
use crate::bar;
use crate::failure::{self, shown, Failure};
use crate::image::ImageFile;
use crate::passphrase::{fill, standard_input};
use crate::pipeline::{self, Steps};
use crate::rate::Work;
use crate::small::QuickChecksum;
use crate::system::{self, Memory};
use mivrozh::header::{Header, SECTOR};
use mivrozh::{Drive, PayloadUnit, Refusal, Secret};
use std::ffi::OsStr;
use std::fs::{File, OpenOptions, Permissions};
use std::io::{self, IsTerminal, Read, Write};
use std::ops::Range;
use std::os::fd::AsFd;
use std::os::unix::fs::{FileTypeExt, OpenOptionsExt, PermissionsExt};
use std::path::Path;
use std::sync::atomic::{AtomicBool, Ordering};

// Units of a chunk: 4 MiB, or less where there are many workers. Each has a chunk twice, plain and enciphered, and all of them
// together take at most 48 MiB.
const MOST_UNITS: u64 = 8192;
const LEAST_UNITS: u64 = 1024;
const ROOM_UNITS: u64 = 98304;
const MOST_WORKERS: u64 = ROOM_UNITS / 2 / LEAST_UNITS;
// A transfer of more shows its progress.
const LONG_UNITS: u64 = 16384;

/// Prints to standard output.
pub fn print(text: &str) -> Result<(), Failure> {
    io::stdout().write_all(text.as_bytes()).map_err(|error| Failure::input_output("standard output", &error))
}

/// Are the units within the payload? Nothing is derived where there is at least one; where there is none the key is tested.
pub fn check_range(image: &mut ImageFile, key: &Secret, first: u64, units: u64) -> Result<(), Refusal> {
    let header = image.drive().header()?;
    let work = if units == 0 { Work::checksum(&header) } else { Work::default() };
    // Without a buffer the engine refuses it (20) right after the range (19).
    let read = || image.drive().read(key, PayloadUnit(first), units, &mut []);
    match bar::during("testing the key", header.profile, work, read).result {
        Err(Refusal::BadBuffer) => Ok(()),
        other => other,
    }
}

/// Where plain bytes go. What a file held before is lost only by force, and what it gets is for its owner only.
pub fn output(target: &OsStr, force: bool, image: &ImageFile) -> Result<Box<dyn Write + Send>, Failure> {
    let file = match target == "-" {
        // Without the buffer that the standard library keeps, and does not wipe.
        true => io::stdout().as_fd().try_clone_to_owned().map(File::from),
        false => output_file(Path::new(target), force, image)?,
    };
    let file = file.map_err(|error| Failure::cannot_write(Path::new(target), &error))?;
    if file.is_terminal() && !force {
        let message = "the plain bytes would go to the terminal; choose a file, use a pipe, or use --force";
        return Err(Failure::new(failure::CANNOT_WRITE, message));
    }
    Ok(Box::new(file))
}

fn output_file(path: &Path, force: bool, image: &ImageFile) -> Result<io::Result<File>, Failure> {
    let there = path.metadata().ok();
    if there.as_ref().is_some_and(|there| image.is(there)) {
        return Err(Failure::new(failure::CANNOT_WRITE, "the output is the image itself; choose another file"));
    }
    Ok(match there.map(|there| there.file_type()) {
        None => OpenOptions::new().write(true).create_new(true).mode(0o600).open(path),
        Some(kind) if kind.is_file() || kind.is_block_device() => {
            if !force {
                let message = format!("{}: it is there already; choose another file, or use --force", shown(path));
                return Err(Failure::new(failure::CANNOT_WRITE, message));
            }
            overwritten(path, kind.is_file())
        }
        Some(_) => OpenOptions::new().write(true).open(path),
    })
}

// A file that is there: its mode is set before anything is written. A block device must be in use by nothing else.
fn overwritten(path: &Path, is_file: bool) -> io::Result<File> {
    const O_EXCL: i32 = 0o200;
    let file = OpenOptions::new().write(true).custom_flags(if is_file { 0 } else { O_EXCL }).open(path)?;
    if is_file {
        file.set_permissions(Permissions::from_mode(0o600))?;
        file.set_len(0)?;
    }
    Ok(file)
}

/// Where plain bytes come from, and how many units they are where that is known.
pub fn input(source: &OsStr, image: &ImageFile) -> Result<(File, Option<u64>), Failure> {
    if source == "-" {
        let file = standard_input().map_err(|error| Failure::input_output("standard input", &error))?;
        return Ok((file, None));
    }
    let path = Path::new(source);
    let file = File::open(path).map_err(|error| Failure::no_input(path, &error))?;
    let there = file.metadata().map_err(|error| Failure::no_input(path, &error))?;
    if image.is(&there) {
        return Err(Failure::new(failure::BAD_INPUT, "the input is the image itself; choose another file"));
    }
    if !there.is_file() {
        return Ok((file, None));
    }
    match there.len() % SECTOR as u64 {
        0 => Ok((file, Some(there.len() / SECTOR as u64))),
        _ => Err(no_whole_units(shown(path))),
    }
}

// How many workers share the units, and how many units a chunk has.
#[derive(Debug, PartialEq)]
struct Plan {
    workers: usize,
    chunk: u64,
}

impl Plan {
    fn new(units: Option<u64>) -> Plan {
        let processors = std::thread::available_parallelism().map_or(1, |number| number.get() as u64);
        Plan::on(processors, units)
    }

    fn on(processors: u64, units: Option<u64>) -> Plan {
        let processors = processors.min(MOST_WORKERS);
        let most = (ROOM_UNITS / 2 / processors).min(MOST_UNITS);
        let Some(units) = units else { return Plan { workers: processors as usize, chunk: most } };
        let chunk = units.div_ceil(processors).clamp(LEAST_UNITS, most);
        Plan { workers: units.div_ceil(chunk).clamp(1, processors) as usize, chunk }
    }
}

// A chunk: memory of the drive's length that holds the header and these units' enciphered bytes, and their plain bytes.
struct Chunk {
    memory: Memory,
    plain: Secret,
    first: u64,
    units: u64,
}

impl Chunk {
    // For a worker, whose stack the engine will use.
    fn new(payload: &Payload) -> Result<Chunk, Failure> {
        mivrozh::lock_stack();
        let memory = payload.image.for_transfers(&payload.checksum)?;
        Ok(Chunk { memory, plain: Secret::zeroed(payload.plan.chunk as usize * SECTOR), first: 0, units: 0 })
    }

    // The bytes of the image that hold the units.
    fn part(&self, payload_start: u64) -> Range<usize> {
        let start = (payload_start + self.first) as usize * SECTOR;
        start..start + self.length()
    }

    fn length(&self) -> usize {
        self.units as usize * SECTOR
    }
}

// What reading and writing have in common.
struct Payload<'a> {
    image: &'a ImageFile,
    key: &'a Secret,
    // Made once for all workers: the drive that it is taken from takes room.
    checksum: QuickChecksum,
    start: u64,
    plan: Plan,
}

impl Payload<'_> {
    fn new<'a>(image: &'a ImageFile, key: &'a Secret, units: Option<u64>) -> Result<Payload<'a>, Failure> {
        let header = Header::of(image.bytes()).map_err(Failure::refused)?;
        let checksum = QuickChecksum::of(image.bytes(), key).map_err(Failure::refused)?;
        Ok(Payload { image, key, checksum, start: header.payload_start.into(), plan: Plan::new(units) })
    }
}

struct Reading<'a>(Payload<'a>);

impl Steps for Reading<'_> {
    type Piece = Chunk;
    // The units that are left.
    type Input = Range<u64>;
    type Output = (Box<dyn Write + Send>, Progress);

    fn piece(&self) -> Result<Chunk, Failure> {
        Chunk::new(&self.0)
    }

    fn take(&self, left: &mut Range<u64>, chunk: &mut Chunk) -> Result<bool, Failure> {
        (chunk.first, chunk.units) = (left.start, self.0.plan.chunk.min(left.end - left.start));
        left.start += chunk.units;
        Ok(chunk.units > 0)
    }

    fn work(&self, chunk: &mut Chunk) -> Result<(), Failure> {
        let part = chunk.part(self.0.start);
        self.0.image.load(&mut chunk.memory, part.clone())?;
        let length = chunk.length();
        let plain = &mut chunk.plain.expose_mut()[..length];
        let drive = Drive::over(chunk.memory.bytes());
        drive.read(self.0.key, PayloadUnit(chunk.first), chunk.units, plain).result.map_err(Failure::refused)?;
        chunk.memory.forget(part);
        Ok(())
    }

    fn give(&self, (out, progress): &mut Self::Output, chunk: &mut Chunk) -> Result<(), Failure> {
        out.write_all(&chunk.plain.expose()[..chunk.length()]).map_err(|error| incomplete(&error))?;
        progress.advance(chunk.units);
        Ok(())
    }

    fn stop(&self) {}
}

/// Deciphers units into the output.
pub fn read(image: &ImageFile, key: &Secret, units: Range<u64>, out: Box<dyn Write + Send>) -> Result<(), Failure> {
    let number = units.end - units.start;
    let reading = Reading(Payload::new(image, key, Some(number))?);
    let output = (out, Progress::new("read", Some(number)));
    let ((mut out, _progress), failure) = pipeline::run(&reading, reading.0.plan.workers, units, output);
    match failure {
        Some(failure) => Err(failure),
        None => out.flush().map_err(|error| incomplete(&error)),
    }
}

struct Writing<'a> {
    payload: Payload<'a>,
    stopped: AtomicBool,
}

// The data as long as nothing else has failed; then they end.
struct Data<'a> {
    file: &'a mut File,
    stopped: &'a AtomicBool,
}

impl Read for Data<'_> {
    fn read(&mut self, buffer: &mut [u8]) -> io::Result<usize> {
        while !self.stopped.load(Ordering::Relaxed) {
            if system::is_readable_within(self.file, 100) {
                return self.file.read(buffer);
            }
        }
        Ok(0)
    }
}

impl Steps for Writing<'_> {
    type Piece = Chunk;
    // The data, and the unit that the next of them goes to.
    type Input = (File, u64);
    type Output = Progress;

    fn piece(&self) -> Result<Chunk, Failure> {
        Chunk::new(&self.payload)
    }

    fn take(&self, (input, next): &mut (File, u64), chunk: &mut Chunk) -> Result<bool, Failure> {
        let filled = fill(&mut Data { file: input, stopped: &self.stopped }, chunk.plain.expose_mut());
        let length = filled.map_err(|error| Failure::input_output("the input", &error))?;
        if length % SECTOR != 0 {
            return Err(no_whole_units("the input"));
        }
        (chunk.first, chunk.units) = (*next, (length / SECTOR) as u64);
        *next = next.saturating_add(chunk.units);
        Ok(length > 0)
    }

    fn work(&self, chunk: &mut Chunk) -> Result<(), Failure> {
        let length = chunk.length();
        let mut drive = Drive::over(chunk.memory.bytes_mut());
        let plain = &chunk.plain.expose()[..length];
        drive.write(self.payload.key, PayloadUnit(chunk.first), chunk.units, plain).result.map_err(Failure::refused)
    }

    fn give(&self, progress: &mut Progress, chunk: &mut Chunk) -> Result<(), Failure> {
        let part = chunk.part(self.payload.start);
        self.payload.image.store(&chunk.memory, part.clone())?;
        chunk.memory.forget(part);
        progress.advance(chunk.units);
        Ok(())
    }

    fn stop(&self) {
        self.stopped.store(true, Ordering::Relaxed);
    }
}

/// Enciphers the input into the payload from a unit on, and flushes it to the disk; gives the number of units written.
pub fn write(image: &ImageFile, key: &Secret, first: u64, input: File, units: Option<u64>) -> Result<u64, Failure> {
    let writing = Writing { payload: Payload::new(image, key, units)?, stopped: AtomicBool::new(false) };
    let progress = Progress::new("written", units);
    let (progress, failure) = pipeline::run(&writing, writing.payload.plan.workers, (input, first), progress);
    match (failure, image.flush()) {
        (None, Ok(())) => Ok(progress.done),
        (Some(failure), Ok(())) => Err(after_units(failure, progress.done)),
        // The disk did not take what was written, so nothing is said of units.
        (Some(failure), Err(_)) | (None, Err(failure)) => Err(failure),
    }
}

fn no_whole_units(what: impl std::fmt::Display) -> Failure {
    let message = format!("{what}: its length is no multiple of 512 bytes; add zeros at its end");
    Failure::new(failure::BAD_INPUT, message)
}

fn after_units(mut failure: Failure, done: u64) -> Failure {
    if done > 0 {
        let were = if done == 1 { "was" } else { "were" };
        failure.message.push_str(&format!(" ({} {were} written before)", counted(done)));
    }
    failure
}

/// So many units, in words.
pub fn counted(units: u64) -> String {
    match units {
        1 => "1 unit".into(),
        _ => format!("{units} units"),
    }
}

fn incomplete(error: &io::Error) -> Failure {
    Failure::input_output("the output is incomplete", error)
}

// How far a long transfer has come, on one line of the terminal.
struct Progress {
    what: &'static str,
    units: Option<u64>,
    done: u64,
    shown: bool,
}

impl Progress {
    fn new(what: &'static str, units: Option<u64>) -> Progress {
        Progress { what, units, done: 0, shown: false }
    }

    fn advance(&mut self, units: u64) {
        self.done += units;
        let long = self.units.unwrap_or(self.done) > LONG_UNITS;
        if !long || !io::stderr().is_terminal() {
            return;
        }
        let megabytes = |units: u64| units * SECTOR as u64 / (1024 * 1024);
        self.shown = true;
        let of = self.units.map_or(String::new(), |all| format!(" of {}", megabytes(all)));
        // A terminal that is gone by now is no reason to stop.
        let _ = write!(io::stderr(), "\r{}{of} MiB {}", megabytes(self.done), self.what);
    }
}

impl Drop for Progress {
    fn drop(&mut self) {
        if self.shown {
            let _ = writeln!(io::stderr());
        }
    }
}

#[cfg(test)]
mod tests {
    use super::*;

    #[test]
    fn chunks_share_the_units_and_keep_to_the_room() {
        for processors in 1..200 {
            for units in [None, Some(0), Some(1), Some(5000), Some(20_000), Some(1 << 21), Some(1 << 40)] {
                let plan = Plan::on(processors, units);
                assert!(plan.workers >= 1 && plan.workers as u64 <= processors);
                assert!(plan.chunk >= LEAST_UNITS && plan.chunk <= MOST_UNITS);
                assert!(plan.workers as u64 * plan.chunk * 2 <= ROOM_UNITS, "{processors}, {units:?}: {plan:?}");
            }
        }
        assert_eq!(Plan::on(2, Some(1 << 21)), Plan { workers: 2, chunk: 8192 });
        assert_eq!(Plan::on(2, Some(10_000)), Plan { workers: 2, chunk: 5000 });
        assert_eq!(Plan::on(2, Some(100)), Plan { workers: 1, chunk: 1024 });
        assert_eq!(Plan::on(16, None), Plan { workers: 16, chunk: 3072 });
    }
}
