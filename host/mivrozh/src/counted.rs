//! What a call gives, with the number of HMAC values that it made.
use crate::Refusal;

/// The result of a call, and beside it the exact number of HMAC values that PBKDF2 made for it: it is what takes the time.
///
/// The number is the engine's, proved like the rest of the call's answer, and a refused call has it too. A call that is
/// refused before it tests a key or a passphrase has made none; one that is refused with 17 has made those of its trials. What
/// a call will make at most is known before it: [`Header`](crate::Header) says it.
///
/// ```
/// # use mivrozh::{Drive, FormatInput, Profile, Refusal, Secret, SlotInput};
/// # let (key, passphrase, salt) = (Secret::zeroed(32), Secret::zeroed(8), [0; 32]);
/// # let uuid = "6a2b1f0e-3c4d-4e5f-8a9b-0c1d2e3f4a5b";
/// # let mut image = vec![0; 1 << 20];
/// # let mut drive = Drive::over(&mut image);
/// # drive.format(&FormatInput::new(Profile::Key256, &key, &salt, 1000, uuid).stripes(1)).result?;
/// # let mut list = vec![0; drive.header()?.list_length(1)];
/// # let _ = drive.add(1, &key, &SlotInput::new(&passphrase, &salt, 5000, &[]), &mut list).result?;
/// let opening = drive.open(&passphrase);
/// assert_eq!(opening.values, 2 * 5000 + 1000); // Two blocks of SHA-1 for 32 bytes of key, one for the checksum.
/// assert_eq!(opening.result?.slot, 1);
/// let opening = drive.open(&Secret::from(&b"another"[..]));
/// assert_eq!(opening.result.err(), Some(Refusal::WrongKey));
/// assert_eq!(opening.values, drive.header()?.search_values());
/// # Ok::<(), Refusal>(())
/// ```
#[derive(Clone, Copy, Debug, PartialEq, Eq)]
#[must_use = "the call may have been refused; `result` says it"]
pub struct Counted<T> {
    /// How many HMAC values the call made.
    pub values: u64,
    pub result: Result<T, Refusal>,
}

impl<T> Counted<T> {
    /// The same number beside what the function makes of an accepted call.
    pub fn map<U>(self, make: impl FnOnce(T) -> U) -> Counted<U> {
        Counted { values: self.values, result: self.result.map(make) }
    }
}

impl Counted<()> {
    // Of a call that returns its number and fills in that of the values.
    pub(crate) fn of(call: impl FnOnce(&mut u64) -> u8) -> Counted<()> {
        let mut values = 0;
        let result = Refusal::answer(call(&mut values));
        Counted { values, result }
    }
}
