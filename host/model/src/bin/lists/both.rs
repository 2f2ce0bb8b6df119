//! One call, made to the library and to the model, and everything compared: number, HMAC values, answer, image, lent
//! buffers and the bytes around them; then both screens of the image. Counts what was called, shown and refused.

use crate::cuts::Cuts;
use crate::random::Random;
use crate::screens;
use mivrozh::raw;
use model::calls::KINDS;
use model::costs;
use model::header::{Header, PROFILES};
use model::{Call, Model, Outcome};

/// What the buffer of an opening and the place of the number of HMAC values hold before the call.
const UNTOUCHED: u8 = 0xee;
const MARGIN: u8 = 0xa5;

/// Bytes lent to the library: either exactly so many, for memory checkers, or with a margin on both sides that must
/// stay.
struct Lent {
    memory: Vec<u8>,
    begin: usize,
    length: usize,
}

impl Lent {
    fn new(random: &mut Random, bytes: &[u8]) -> Lent {
        let margin = if random.chance(1, 2) { 0 } else { random.range(56, 64) };
        let edge = vec![MARGIN; margin];
        Lent { memory: [&edge, bytes, &edge].concat(), begin: margin, length: bytes.len() }
    }

    fn bytes(&mut self) -> &mut [u8] {
        &mut self.memory[self.begin..self.begin + self.length]
    }

    /// The bytes as the library left them, and whether the margins stay.
    fn returned(mut self) -> (Vec<u8>, bool) {
        let after = self.memory.split_off(self.begin + self.length);
        let before: Vec<u8> = self.memory.drain(..self.begin).collect();
        (self.memory, before.iter().chain(&after).all(|b| *b == MARGIN))
    }
}

pub struct Both {
    pub model: Model,
    random: Random,
    pub calls: [u64; 8],
    pub numbers: [[u64; 21]; 8],
    /// Accepted calls, by the profile that the drive has afterwards.
    pub accepted: [[u64; 8]; PROFILES.len()],
    /// Images shown on both screens, by the number that these gave.
    pub shown: [u64; 7],
    /// What was tried of cut lists.
    pub cuts: Cuts,
    /// HMAC values that all calls made, by `KINDS`: accepted ones, and those refused with 17.
    pub values: [[u64; 2]; 8],
    /// Searches on drives of two enabled slots or more: those that hit before the last of them, and those that tried all in vain.
    pub searches: [u64; 2],
}

impl Both {
    pub fn new(seed: u64) -> Both {
        let random = Random::new(seed ^ 0x6c656e74);
        let (model, accepted) = (Model::default(), Default::default());
        let cuts = Cuts::default();
        let (numbers, values, searches) = ([[0; 21]; 8], [[0; 2]; 8], [0; 2]);
        Both { model, random, calls: [0; 8], numbers, accepted, shown: [0; 7], cuts, values, searches }
    }

    /// Makes the call to both, compares, and leaves the image as the call does. Then shows it on the screens of both.
    pub fn run(&mut self, image: &mut Vec<u8>, call: &Call) -> Result<u8, String> {
        let expected = self.model.step(image, call);
        let before = call.clone();
        let (found, margins) = self.library(image, call);
        let kind = call.kind();
        if *std::hint::black_box(call) != before {
            return Err(format!("{}: the library altered an argument it may only read", KINDS[kind]));
        }
        if let Some(what) = difference(&expected, &found) {
            return Err(format!("{what}\nimage: {} bytes\ncall: {}", image.len(), shown(call)));
        }
        if !margins {
            return Err(format!("the library wrote outside a lent buffer\ncall: {}", shown(call)));
        }
        self.judge_values(image, call, &found).map_err(|e| format!("{e}\ncall: {}", shown(call)))?;
        self.calls[kind] += 1;
        self.numbers[kind][found.number as usize] += 1;
        *image = found.image;
        if found.number == 0 {
            let profile = Header::read(image).profile().ok_or("a call is accepted on a drive of no profile")?;
            self.accepted[profile.number as usize - 1][kind] += 1;
        }
        self.show(image).map_err(|e| format!("{e}\nafter the call: {}", shown(call)))?;
        Ok(found.number)
    }

    /// Holds the library's number of HMAC values against what the wish says of it, by the image before the call.
    fn judge_values(&mut self, before: &[u8], call: &Call, found: &Outcome) -> Result<(), String> {
        let header = Header::read(before);
        let said = costs::said(&header, call, found.number, found.opened[0]);
        if found.values != said {
            return Err(format!("HMAC values: the wish says {said}, the library {}", found.values));
        }
        if ![0, 17].contains(&found.number) {
            return Ok(());
        }
        self.values[call.kind()][usize::from(found.number != 0)] += found.values;
        let several = header.slots.iter().filter(|slot| slot.enabled()).count() > 1;
        if matches!(call, Call::Open { .. }) && several {
            self.searches[0] += u64::from(found.values < costs::trials(&header, 8));
            self.searches[1] += u64::from(found.number == 17);
        }
        Ok(())
    }

    /// Shows the image on both screens of both, compares, and gives the number.
    pub fn show(&mut self, image: &[u8]) -> Result<u8, String> {
        let number = screens::compare(&mut self.random, image)?;
        self.shown[number as usize] += 1;
        Ok(number)
    }

    fn library(&mut self, image: &[u8], call: &Call) -> (Outcome, bool) {
        let mut lent_image = Lent::new(&mut self.random, image);
        let mut lent_buffer = Lent::new(&mut self.random, call.lent());
        let mut lent_opened = Lent::new(&mut self.random, &[UNTOUCHED; 66]);
        let opened: &mut [u8; 66] = lent_opened.bytes().try_into().expect("66 bytes were lent");
        let mut values = u64::from_ne_bytes([UNTOUCHED; 8]);
        let number = call_library(lent_image.bytes(), lent_buffer.bytes(), opened, call, &mut values);
        let opens = matches!(call, Call::OpenSlot { .. } | Call::Open { .. });
        let opened = if opens { *opened } else { [0; 66] };
        let ((image, one), (buffer, two), (_, three)) =
            (lent_image.returned(), lent_buffer.returned(), lent_opened.returned());
        (Outcome { number, values, opened, buffer, image }, one && two && three)
    }
}

fn call_library(image: &mut [u8], lent: &mut [u8], opened: &mut [u8; 66], call: &Call, values: &mut u64) -> u8 {
    match call {
        Call::Format { profile, stripes, key, salt, count, uuid } => {
            raw::format(image, *profile, *stripes, key, salt, *count, uuid, values)
        }
        Call::Add { slot, key, passphrase, salt, count, random, .. } => {
            raw::add(image, *slot, key, passphrase, salt, *count, random, lent, values)
        }
        Call::OpenSlot { slot, passphrase } => raw::open_slot(image, *slot, passphrase, opened, values),
        Call::Open { passphrase } => raw::open(image, passphrase, opened, values),
        Call::Change { from, old, to, new, salt, count, random, filler, .. } => {
            raw::change(image, *from, old, *to, new, salt, *count, random, filler, lent, values)
        }
        Call::Revoke { slot, filler, .. } => raw::revoke(image, *slot, filler, lent, values),
        Call::Read { key, first, units, .. } => raw::read(image, key, *first, *units, lent, values),
        Call::Write { key, first, units, buffer } => raw::write(image, key, *first, *units, buffer, values),
    }
}

/// What the library did otherwise than the model, if anything.
fn difference(model: &Outcome, library: &Outcome) -> Option<String> {
    let place = |a: &[u8], b: &[u8]| a.iter().zip(b).position(|(a, b)| a != b);
    if model.number != library.number {
        return Some(format!("number: the model says {}, the library {}", model.number, library.number));
    }
    if model.values != library.values {
        return Some(format!("HMAC values: the model makes {}, the library {}", model.values, library.values));
    }
    if model.opened != library.opened {
        return Some(format!("answer: the model gives {:02x?}, the library {:02x?}", model.opened, library.opened));
    }
    if model.buffer != library.buffer {
        return Some(format!("buffer: differs at byte {:?}", place(&model.buffer, &library.buffer)));
    }
    if model.image != library.image {
        return Some(format!("image: differs at byte {:?}", place(&model.image, &library.image)));
    }
    None
}

/// A call for a message, cut where its buffers are long.
fn shown(call: &Call) -> String {
    let text = format!("{call:?}");
    text.chars().take(4000).collect()
}
