//! Passphrases: from a key file, or typed at the terminal without echo, where a mistyped one is asked for again.
use crate::arguments::Given;
use crate::failure::{self, shown, Failure};
use crate::terminal;
use mivrozh::{Refusal, Secret};
use std::fs::{File, OpenOptions};
use std::io::{self, Read, Seek, SeekFrom, Write};
use std::os::fd::AsFd;
use std::path::Path;

// The longest passphrase that the engine accepts.
const LONGEST: usize = 512;

// How often a passphrase is asked for.
const TRIES: u32 = 3;

/// Where a passphrase comes from: from `size` bytes of a file, or all, from `offset` on; or from the terminal.
pub struct Source<'a> {
    file: Option<&'a Path>,
    offset: u64,
    size: Option<u64>,
}

impl Source<'_> {
    /// The source that an option for a key file names, with the offset and the size that may belong to it.
    pub fn of<'a>(given: &'a Given, option: &str) -> Result<Source<'a>, Failure> {
        let file = given.value(option).map(Path::new);
        let number = |what: &str| {
            let name = format!("{option}-{what}");
            match given.number(&name)? {
                Some(_) if file.is_none() => Err(given.command.usage(&format!("{name} is given without {option}"))),
                number => Ok(number),
            }
        };
        Ok(Source { file, offset: number("offset")?.unwrap_or(0), size: number("size")? })
    }

    /// Whether it is asked for at the terminal.
    pub fn asks(&self) -> bool {
        self.file.is_none()
    }

    // Every byte counts, a newline at the file's end too. Of a passphrase that is too long one byte more than the longest is
    // kept, so that the engine sees it.
    fn read(&self, path: &Path) -> Result<Secret, Failure> {
        let file = if path == Path::new("-") { standard_input() } else { File::open(path) };
        let most = self.size.map_or(LONGEST + 1, |size| size.min(LONGEST as u64 + 1) as usize);
        let mut secret = Secret::zeroed(most);
        let length = file.and_then(|mut file| match skip(&mut file, self.offset)? {
            true => fill(&mut file, secret.expose_mut()).map(Some),
            false => Ok(None),
        });
        match length.map_err(|error| Failure::no_input(path, &error))? {
            Some(length) if length == most || self.size.is_none() => secret.truncate(length),
            _ => {
                let what = "it ends before the passphrase does; give a smaller offset or size, or check the file";
                return Err(Failure::new(failure::BAD_INPUT, format!("{}: {what}", shown(path))));
            }
        }
        Ok(secret)
    }
}

/// Tries an existing passphrase. At the terminal, one that opens nothing or has a wrong length is asked for again. Gives what
/// the attempt gave, and the passphrase.
pub fn tried<T>(
    source: &Source,
    prompt: &str,
    mut attempt: impl FnMut(&Secret) -> Result<T, Failure>,
) -> Result<(T, Secret), Failure> {
    if let Some(path) = source.file {
        let secret = source.read(path)?;
        return Ok((attempt(&secret)?, secret));
    }
    let terminal = terminal()?;
    let mut left = TRIES;
    loop {
        left -= 1;
        let secret = typed(&terminal, prompt)?;
        match attempt(&secret) {
            Ok(done) => return Ok((done, secret)),
            Err(failure) if left > 0 && may_be_mistyped(&failure) => say(&terminal, &try_again(&failure))?,
            Err(failure) => return Err(failure),
        }
    }
}

fn may_be_mistyped(failure: &Failure) -> bool {
    [Refusal::WrongKey, Refusal::BadPassphrase].iter().any(|refusal| refusal.number() == failure.status)
}

// What a refusal's message says is wrong, without the refusal's number, and with another remedy.
fn try_again(failure: &Failure) -> String {
    let sentence = failure.message.split_once(": ").map_or(&*failure.message, |(_, sentence)| sentence);
    let wrong = sentence.split(';').next().unwrap_or(sentence);
    format!("{}; try again", wrong.trim_end_matches('.'))
}

/// A new passphrase: typed twice where it is typed, and asked for again where something is wrong with it.
pub fn new(source: &Source, prompt: &str) -> Result<Secret, Failure> {
    if let Some(path) = source.file {
        return source.read(path);
    }
    let terminal = terminal()?;
    let mut left = TRIES;
    loop {
        left -= 1;
        let secret = typed(&terminal, prompt)?;
        let fits = (1..=LONGEST).contains(&secret.len());
        let wrong = if !fits {
            "a passphrase must have 1 to 512 bytes; try again"
        } else if secret.expose().iter().any(u8::is_ascii_control) {
            "a control key was typed, such as an arrow or Ctrl-V; type the passphrase again without it, or use a key file"
        } else if secret.expose() == typed(&terminal, "The same again: ")?.expose() {
            return Ok(secret);
        } else {
            "the two passphrases differ; try again"
        };
        match left {
            0 if fits => return Err(Failure::new(failure::BAD_INPUT, format!("{wrong} (nothing was changed)"))),
            // The engine refuses it.
            0 => return Ok(secret),
            _ => say(&terminal, wrong)?,
        }
    }
}

/// Shows a text at the terminal before a passphrase is asked for there, and nothing where it comes from a file.
pub fn show_before(source: &Source, text: &str) -> Result<(), Failure> {
    match source.asks() {
        true => terminal()?.write_all(text.as_bytes()).map_err(|error| Failure::input_output("the terminal", &error)),
        false => Ok(()),
    }
}

/// Asks for "yes" at the terminal. An answer that is longer than its place is no yes, and is read to its end.
pub fn confirmed(question: &str) -> Result<bool, Failure> {
    let mut terminal = terminal()?;
    let answer = |terminal: &mut File| -> io::Result<bool> {
        write!(terminal, "{question} Type yes to go on: ")?;
        let (mut answer, mut length, mut byte) = ([0; 64], 0, [0]);
        while fill(terminal, &mut byte)? == 1 && !matches!(byte[0], b'\n' | b'\r') {
            if let Some(place) = answer.get_mut(length) {
                *place = byte[0];
            }
            length += 1;
        }
        Ok(answer.get(..length).is_some_and(|answer| answer.trim_ascii() == b"yes"))
    };
    answer(&mut terminal).map_err(|error| Failure::input_output("the terminal", &error))
}

/// Standard input without the buffer that the standard library keeps, and does not wipe.
pub fn standard_input() -> io::Result<File> {
    Ok(File::from(io::stdin().as_fd().try_clone_to_owned()?))
}

/// Reads until the buffer is full or the input ends; gives the number of bytes.
pub fn fill(input: &mut dyn Read, buffer: &mut [u8]) -> io::Result<usize> {
    let mut length = 0;
    while length < buffer.len() {
        match input.read(&mut buffer[length..]) {
            Ok(0) => break,
            Ok(count) => length += count,
            Err(error) if error.kind() == io::ErrorKind::Interrupted => {}
            Err(error) => return Err(error),
        }
    }
    Ok(length)
}

// Goes on by some bytes; gives whether they are there. A pipe is read; in a file only the last of them is.
fn skip(file: &mut File, offset: u64) -> io::Result<bool> {
    let Some(before_last) = offset.checked_sub(1) else { return Ok(true) };
    let sought = i64::try_from(before_last).is_ok_and(|by| file.seek(SeekFrom::Current(by)).is_ok());
    let mut left = if sought { 1 } else { offset };
    let mut skipped = Secret::zeroed(left.min(65536) as usize);
    while left > 0 {
        let now = left.min(skipped.len() as u64) as usize;
        if fill(file, &mut skipped.expose_mut()[..now])? < now {
            return Ok(false);
        }
        left -= now as u64;
    }
    Ok(true)
}

fn terminal() -> Result<File, Failure> {
    OpenOptions::new().read(true).write(true).open("/dev/tty").map_err(|_| {
        Failure::usage("there is no terminal to ask at; use --key-file, --new-key-file or --force as the command needs")
    })
}

fn typed(terminal: &File, prompt: &str) -> Result<Secret, Failure> {
    match terminal::typed(terminal, prompt) {
        Ok(Some(mut secret)) => {
            secret.truncate(LONGEST + 1);
            Ok(secret)
        }
        Ok(None) => Err(Failure::new(failure::BAD_INPUT, "stopped at the prompt; nothing was changed")),
        Err(error) => Err(Failure::input_output("the terminal", &error)),
    }
}

// Why a passphrase is asked for again.
fn say(mut terminal: &File, sentence: &str) -> Result<(), Failure> {
    writeln!(terminal, "{sentence}").map_err(|error| Failure::input_output("the terminal", &error))
}
