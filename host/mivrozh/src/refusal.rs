//! Why a call was refused: one name, one number and one sentence for each reason.
use std::fmt;

/// The reason of a refusal. The first check that fails gives it; a refused call has changed nothing. Later versions may
/// have more of them, so a match has an arm for others.
#[derive(Clone, Copy, Debug, PartialEq, Eq, Hash)]
#[non_exhaustive]
#[repr(u8)]
pub enum Refusal {
    ImageSize = 1,
    Magic = 2,
    Version = 3,
    NoProfile = 4,
    BadRecord = 5,
    BadArea = 6,
    UnknownProfile = 7,
    BadStripes = 8,
    KeyLength = 9,
    LowCount = 10,
    BadUuid = 11,
    ShortImage = 12,
    BadSlot = 13,
    BadPassphrase = 14,
    WrongState = 15,
    BadLength = 16,
    WrongKey = 17,
    LastSlot = 18,
    BadRange = 19,
    BadBuffer = 20,
}

impl Refusal {
    /// Every reason, in the order of the numbers.
    pub const ALL: &'static [Refusal] = &[
        Refusal::ImageSize,
        Refusal::Magic,
        Refusal::Version,
        Refusal::NoProfile,
        Refusal::BadRecord,
        Refusal::BadArea,
        Refusal::UnknownProfile,
        Refusal::BadStripes,
        Refusal::KeyLength,
        Refusal::LowCount,
        Refusal::BadUuid,
        Refusal::ShortImage,
        Refusal::BadSlot,
        Refusal::BadPassphrase,
        Refusal::WrongState,
        Refusal::BadLength,
        Refusal::WrongKey,
        Refusal::LastSlot,
        Refusal::BadRange,
        Refusal::BadBuffer,
    ];

    /// The number, from 1 on, that the engine returns for this reason.
    pub fn number(self) -> u8 {
        self as u8
    }

    /// The refusal with this number; nothing where this version has none. 0 is none: the engine returns it for a call
    /// that was accepted.
    pub fn from_number(number: u8) -> Option<Refusal> {
        Refusal::ALL.get(usize::from(number).checked_sub(1)?).copied()
    }

    // What a call's number says. A number that is no refusal of this version is never taken for an acceptance. The
    // engine is linked with the binding and has no such number.
    pub(crate) fn answer(number: u8) -> Result<(), Refusal> {
        match (number, Refusal::from_number(number)) {
            (0, _) => Ok(()),
            (_, Some(refusal)) => Err(refusal),
            (_, None) => panic!("the engine has no refusal {number}"),
        }
    }

    /// What is wrong, and what to do about it.
    pub fn sentence(self) -> &'static str {
        match self {
            Refusal::ImageSize => {
                "the image is smaller than 1,024 bytes or not a whole number of 512-byte sectors; \
                 give the whole drive, or make its length a multiple of 512"
            }
            Refusal::Magic => "this is not a LUKS drive: its first bytes are others; check that it is the right file",
            Refusal::Version => "this drive is not LUKS version 1; use a tool for its version",
            Refusal::NoProfile => {
                "the drive has another cipher, hash or key size than aes, xts-plain64 and sha1 or sha256 with 256 or 512 \
                 bits; use a tool that knows them"
            }
            Refusal::BadRecord => {
                "the header is damaged: a count is 0, or a key slot's state or stripes are impossible; \
                 restore the header from a backup"
            }
            Refusal::BadArea => {
                "the header is damaged or the image is cut short: the payload start or a key slot's area lies where it \
                 cannot; give the whole image, or restore the header from a backup"
            }
            Refusal::UnknownProfile => {
                "there is no such profile; use 1 (sha1, 256-bit key), 2 (sha1, 512-bit key), 3 (sha256, 256-bit key) or \
                 4 (sha256, 512-bit key)"
            }
            Refusal::BadStripes => "the number of stripes must be 1 to 4,000; use 4,000 unless you know better",
            Refusal::KeyLength => "the master key has another length than the drive's profile; give the drive's own key",
            Refusal::LowCount => "the iteration count is too small; use 1,000 or more",
            Refusal::BadUuid => "the UUID must have 36 printable characters without spaces; give one of that form",
            Refusal::ShortImage => {
                "the image is shorter than its payload start, 1 MiB, or 2 MiB where the eight key areas need more; \
                 make it longer"
            }
            Refusal::BadSlot => {
                "there is no such key slot; use a number from 1 to 8 (cryptsetup counts from 0: its slot 0 is slot 1 here)"
            }
            Refusal::BadPassphrase => "a passphrase must have 1 to 512 bytes; use one of that length",
            Refusal::WrongState => {
                "the key slot is in the wrong state: a new passphrase needs a free slot, every other call one that is in \
                 use; choose another slot"
            }
            Refusal::BadLength => {
                "the random bytes or the filler have the wrong length for the key slot; give as many as its stripes need"
            }
            Refusal::WrongKey => {
                "no key slot that was tried opens with this passphrase, or the key is not the drive's; \
                 check the passphrase and the slot"
            }
            Refusal::LastSlot => "this is the last key slot in use; add another passphrase before you revoke it",
            Refusal::BadRange => {
                "the units lie outside the payload; use a smaller first unit or fewer units"
            }
            Refusal::BadBuffer => {
                "the buffer must have 512 bytes for each unit that is read or written, or 516 for each write of the list \
                 that a call gives; give one of exactly that length"
            }
        }
    }
}

impl fmt::Display for Refusal {
    fn fmt(&self, f: &mut fmt::Formatter<'_>) -> fmt::Result {
        f.write_str(self.sentence())
    }
}

impl std::error::Error for Refusal {}

#[cfg(test)]
mod tests {
    #[test]
    #[should_panic(expected = "no refusal 21")]
    fn an_unknown_number_is_no_acceptance() {
        let _ = super::Refusal::answer(21);
    }
}
