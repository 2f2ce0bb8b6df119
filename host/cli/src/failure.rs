//! Why the tool gives up: an exit status and a message.
use mivrozh::header::Names;
use mivrozh::Refusal;
use std::ffi::OsStr;
use std::fmt::{self, Display, Write};
use std::io;
use std::os::unix::ffi::OsStrExt;
use std::path::Path;

/// 1 to 20 are the engine's refusals; the others are named here, and in the help.
pub const USAGE: u8 = 64;
pub const BAD_INPUT: u8 = 65;
pub const NO_INPUT: u8 = 66;
pub const CANNOT_WRITE: u8 = 73;
pub const INPUT_OUTPUT: u8 = 74;
pub const BUSY: u8 = 75;

#[derive(Debug)]
pub struct Failure {
    pub status: u8,
    pub message: String,
}

impl Failure {
    pub fn new(status: u8, message: impl Into<String>) -> Failure {
        Failure { status, message: message.into() }
    }

    pub fn usage(message: impl Into<String>) -> Failure {
        Failure::new(USAGE, message)
    }

    /// A refusal of the engine, about no slot in particular.
    pub fn refused(refusal: Refusal) -> Failure {
        Failure::new(refusal.number(), format!("refusal {}: {refusal}.", refusal.number()))
    }

    /// A refusal of the engine, about a slot.
    pub fn refused_slot(refusal: Refusal, slot: u8) -> Failure {
        Failure::new(refusal.number(), format!("refusal {}, key slot {slot}: {refusal}.", refusal.number()))
    }

    /// A refusal of the engine, with a sentence that fits better than the general one.
    pub fn refused_because(refusal: Refusal, sentence: impl Display) -> Failure {
        Failure::new(refusal.number(), format!("refusal {}: {sentence}.", refusal.number()))
    }

    /// A refusal of the header check. Where no profile fits, it says what the header has.
    pub fn refused_header(refusal: Refusal, image: &[u8]) -> Failure {
        let (Refusal::NoProfile, Some(names)) = (refusal, Names::of(image)) else { return Failure::refused(refusal) };
        let name = |bytes: &[u8]| format!("'{}'", shown(OsStr::from_bytes(bytes)));
        let sentence = format!(
            "the drive has cipher {}, mode {}, hash {} and a key of {} bits; this tool knows aes, xts-plain64 and sha1 or \
             sha256 with 256 or 512 bits; use a tool that knows the others",
            name(names.cipher),
            name(names.mode),
            name(names.hash),
            u64::from(names.key_bytes) * 8
        );
        Failure::refused_because(refusal, sentence)
    }

    /// A file that cannot be read.
    pub fn no_input(path: &Path, error: &io::Error) -> Failure {
        Failure::new(NO_INPUT, format!("{}: {}", shown(path), said(error)))
    }

    /// A file that cannot be opened for writing, or made.
    pub fn cannot_write(path: &Path, error: &io::Error) -> Failure {
        Failure::new(CANNOT_WRITE, format!("{}: it cannot be opened for writing: {}", shown(path), said(error)))
    }

    /// Reading or writing that failed on the way.
    pub fn input_output(what: impl Display, error: &io::Error) -> Failure {
        Failure::new(INPUT_OUTPUT, format!("{what}: {}", said(error)))
    }

    /// The same failure with one more sentence, about what to do then.
    pub fn with_advice(self, advice: impl Display) -> Failure {
        Failure::new(self.status, format!("{}. {advice}.", self.message.trim_end_matches('.')))
    }
}

/// A name that was given, for a message: what is no text or would not show as it is, such as a control character, is
/// escaped.
pub fn shown(name: &(impl AsRef<OsStr> + ?Sized)) -> impl Display + '_ {
    Shown(name.as_ref())
}

struct Shown<'a>(&'a OsStr);

impl Display for Shown<'_> {
    fn fmt(&self, f: &mut fmt::Formatter<'_>) -> fmt::Result {
        for chunk in self.0.as_bytes().utf8_chunks() {
            for character in chunk.valid().chars() {
                match character {
                    '\'' | '"' => f.write_char(character)?,
                    other => write!(f, "{}", other.escape_debug())?,
                }
            }
            write!(f, "{}", chunk.invalid().escape_ascii())?;
        }
        Ok(())
    }
}

// What the operating system says, in its words, with a remedy where there is a common one.
fn said(error: &io::Error) -> String {
    match error.kind() {
        io::ErrorKind::NotFound => "there is no such file; check the name".into(),
        io::ErrorKind::PermissionDenied => "permission denied; check the file's owner and mode".into(),
        io::ErrorKind::ReadOnlyFilesystem => "the file system is read-only; mount it for writing".into(),
        io::ErrorKind::StorageFull => "the disk is full; make room on it first".into(),
        _ => error.to_string(),
    }
}

#[cfg(test)]
mod tests {
    use super::*;

    #[test]
    fn names_are_escaped() {
        let of = |bytes: &[u8]| shown(OsStr::from_bytes(bytes)).to_string();
        assert_eq!(of(b"plain name.img"), "plain name.img");
        assert_eq!(of("Forelle \u{e4}'s \"year\"".as_bytes()), "Forelle \u{e4}'s \"year\"");
        assert_eq!(of(b"\x1b[2J\n\r\x07\x7f"), "\\u{1b}[2J\\n\\r\\u{7}\\u{7f}");
        assert_eq!(of("a\u{202e}b".as_bytes()), "a\\u{202e}b");
        assert_eq!(of(b"\xff\xfeend\xc3"), "\\xff\\xfeend\\xc3");
        assert_eq!(of(b"back\\slash"), "back\\\\slash");
    }
}
