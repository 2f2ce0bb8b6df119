//! Both screens of the library against the model's, with junk in their arrays before the call; and that drives which
//! pass the header check give the same screen exactly when they agree in its fields.

use crate::both::Both;
use crate::damage;
use crate::random::Random;
use mivrozh::raw;
use model::header::{at, put_number, Header, DISABLED, ENABLED, HEADER};
use model::screens::{first, second, First, Second};

/// An array of eight entries full of junk, and an entry before and after it that must stay.
struct Lent<T> {
    junk: T,
    memory: [T; 10],
}

impl<T: Copy + PartialEq> Lent<T> {
    fn new(junk: T) -> Lent<T> {
        Lent { junk, memory: [junk; 10] }
    }

    fn entries(&mut self) -> &mut [T; 8] {
        (&mut self.memory[1..9]).try_into().expect("eight entries")
    }

    /// The entries, if what stands around them is as it was.
    fn written(&self) -> Option<[T; 8]> {
        let [before, entries @ .., after] = &self.memory;
        (*before == self.junk && *after == self.junk).then_some(*entries)
    }
}

/// What the library shows of the image; nothing where it writes outside its arrays.
fn library(random: &mut Random, image: &[u8]) -> Option<(First, Second)> {
    let junk = random.range(2, 255) as u8;
    let (mut alone, mut enabled) = (Lent::new(junk), Lent::new(junk));
    let [mut counts, mut starts, mut stripes] = [[junk; 4]; 3].map(|junk| Lent::new(u32::from_be_bytes(junk)));
    let number = raw::slots(image, alone.entries());
    let first = First { number, enabled: alone.written()? };
    let number = raw::slot_details(image, enabled.entries(), counts.entries(), starts.entries(), stripes.entries());
    let (enabled, counts, starts, stripes) =
        (enabled.written()?, counts.written()?, starts.written()?, stripes.written()?);
    Some((first, Second { number, enabled, counts, starts, stripes }))
}

/// Shows the image on both screens, by the library and by the model; gives the number.
pub fn compare(random: &mut Random, image: &[u8]) -> Result<u8, String> {
    let found = library(random, image).ok_or("a screen wrote outside its arrays")?;
    let expected = (first(image), second(image));
    if found != expected {
        return Err(format!("screens: the model shows {expected:?}, the library {found:?}"));
    }
    Ok(found.0.number)
}

/// Where a record has the numbers of each screen.
const FIRST: &[usize] = &[at::STATE];
const SECOND: &[usize] = &[at::STATE, at::SLOT_COUNT, at::START, at::STRIPES];

/// The bytes that these numbers have in the records of all slots.
fn fields(image: &[u8], numbers: &[usize]) -> Vec<u8> {
    let places = (1..=8).flat_map(|k| numbers.iter().map(move |number| at::slot(k) + number));
    places.flat_map(|at| &image[at..at + 4]).copied().collect()
}

/// Drives made of this one by a change that the header check may let pass: of each byte of the header, of each number
/// of a slot, of a byte beyond the header, and those that are no damage.
fn others(random: &mut Random, image: &[u8]) -> Vec<Vec<u8>> {
    let mut others = vec![image.to_vec(); HEADER];
    others.iter_mut().enumerate().for_each(|(byte, other)| other[byte] ^= random.range(1, 255) as u8);
    let mut put = |number_at: usize, number: u32| {
        others.push(image.to_vec());
        put_number(others.last_mut().expect("one was added"), number_at, number);
    };
    for (k, slot) in (1..).zip(Header::read(image).slots) {
        put(at::slot(k) + at::STATE, if slot.enabled() { DISABLED } else { ENABLED });
        put(at::slot(k) + at::SLOT_COUNT, slot.count.wrapping_add(1));
        put(at::slot(k) + at::STRIPES, slot.stripes / 2);
        put(at::slot(k) + at::START, slot.start + 1);
    }
    for (_, change) in damage::FAIR {
        let mut other = image.to_vec();
        change(random, &mut other);
        others.push(other);
    }
    let mut other = image.to_vec();
    other[random.range(HEADER, image.len() - 1)] ^= 1;
    others.push(other);
    others
}

/// How many of the drives made of this one pass the header check and show the same on both screens, on the first alone,
/// and on neither.
pub fn agreements(both: &mut Both, random: &mut Random, image: &[u8]) -> Result<[usize; 3], String> {
    let mut found = [0; 3];
    let shown = library(random, image).ok_or("a screen wrote outside its arrays")?;
    for other in others(random, image) {
        if both.show(&other)? != 0 {
            continue;
        }
        let others = library(random, &other).ok_or("a screen wrote outside its arrays")?;
        let same = [shown.0 == others.0, shown.1 == others.1];
        let agree = [FIRST, SECOND].map(|screen| fields(image, screen) == fields(&other, screen));
        if same != agree {
            return Err(format!(
                "two drives agree in the fields of the screens: {agree:?}, but show the same: {same:?}"
            ));
        }
        found[agree.iter().filter(|agree| !**agree).count()] += 1;
    }
    Ok(found)
}
