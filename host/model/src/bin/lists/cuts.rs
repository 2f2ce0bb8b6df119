//! Lists of sector writes that are cut, as 02's Wish 5 speaks of them: at every point, and with some of an area's writes done
//! and others not, the header check passes, the other slots open, of a change the old passphrase or the new one opens, and the
//! call once more makes the uncut image. Library and model are asked alike.
//!
//! Not every cut is tried: of the random lists on long images one in `LONG` is cut, of the systematic calls only those of
//! `sets::lengths` and `walks::cut_on_new_drive`, and of each area's writes one random set is done without the others.

use crate::both::Both;
use crate::drives::Drive;
use crate::random::Random;
use crate::sets::list_length;
use model::calls::KINDS;
use model::header::{Header, Slot};
use model::writes::{carry_out, decoded, SectorWrite};
use model::{Call, Outcome};

/// What was tried.
#[derive(Default)]
pub struct Cuts {
    /// Calls whose lists were cut, by `KINDS`.
    pub calls: [u64; 8],
    /// Images that a cut left, by `KINDS`.
    pub images: [u64; 8],
    /// Openings of other slots.
    pub openings: u64,
    /// How the work was ended, on every image and on long ones.
    pub ends: Ends,
    pub long_ends: Ends,
}

/// Calls given again that were accepted, calls that were refused with 15, and changes that a revoke has ended.
#[derive(Clone, Copy, Default)]
pub struct Ends {
    pub again: u64,
    pub done_before: u64,
    pub revoked: u64,
}

impl Ends {
    fn add(&mut self, number: u8, revokes: bool) {
        match (number, revokes) {
            (15, _) => self.done_before += 1,
            (_, false) => self.again += 1,
            (_, true) => self.revoked += 1,
        }
    }

    fn all_met(&self) -> bool {
        self.again > 0 && self.done_before > 0 && self.revoked > 0
    }
}

impl Cuts {
    /// Every kind of cut and of end was met, and every kind of end on a long image too.
    pub fn complete(&self) -> bool {
        let kinds = ["add", "change", "revoke"].map(|name| KINDS.iter().position(|kind| *kind == name));
        let met = kinds.into_iter().flatten().all(|kind| self.images[kind] > 0);
        met && self.openings > 0 && self.ends.all_met() && self.long_ends.all_met()
    }
}

/// Images above this length are copied and compared too slowly for every list on them to be cut: one in `LONG` is.
const LONG_IMAGE: usize = 1 << 18;
const LONG: u64 = 12;

/// Shall the list of this call be cut, should it be accepted?
pub fn is_chosen(random: &mut Random, drive: &Drive, call: &Call) -> bool {
    let has_list = matches!(call, Call::Add { .. } | Call::Change { .. } | Call::Revoke { .. });
    has_list && (drive.image.len() < LONG_IMAGE || random.chance(1, LONG))
}

/// An accepted call whose list is cut.
struct Cut<'a> {
    before: &'a Drive,
    call: &'a Call,
    after: Vec<u8>,
    list: Vec<SectorWrite>,
    /// Openings of the other slots whose passphrase is known, and what they give before the call.
    others: Vec<(Call, Outcome)>,
}

/// Cuts the list of an accepted call at every point, and with random sets of an area's writes.
pub fn everywhere(both: &mut Both, random: &mut Random, before: &Drive, call: &Call) -> Result<(), String> {
    let out = both.model.step(&before.image, call);
    let others = other_slots(before, call).map(|open| (open.clone(), both.model.step(&before.image, &open))).collect();
    let cut = Cut { before, call, after: out.image, list: decoded(&out.buffer), others };
    if cut.image(cut.list.iter()) != cut.after {
        return Err(format!("the list of {} does not make its image", KINDS[call.kind()]));
    }
    both.cuts.calls[call.kind()] += 1;
    for done in 0..=cut.list.len() {
        let image = cut.image(&cut.list[..done]);
        cut.judge(both, image).map_err(|e| cut.told(&format!("{done} writes"), &e))?;
    }
    for area in cut.areas() {
        let some: Vec<bool> = area.clone().map(|_| random.chance(1, 2)).collect();
        let of_area = cut.list[area.clone()].iter().zip(&some).filter(|(_, done)| **done).map(|(write, _)| write);
        let image = cut.image(cut.list[..area.start].iter().chain(of_area));
        cut.judge(both, image).map_err(|e| cut.told(&format!("the writes {some:?} of an area"), &e))?;
    }
    Ok(())
}

/// Openings of the slots that have nothing to do with the call, as far as their passphrases are known.
fn other_slots<'a>(before: &'a Drive, call: &Call) -> impl Iterator<Item = Call> + 'a {
    let own = match call {
        Call::Add { slot, .. } | Call::Revoke { slot, .. } => vec![*slot],
        Call::Change { from, to, .. } => vec![*from, *to],
        _ => vec![],
    };
    let known = (1..).zip(&before.passphrases).filter_map(|(slot, p)| Some((slot, p.clone()?)));
    known.filter(move |(slot, _)| !own.contains(slot)).map(|(slot, passphrase)| Call::OpenSlot { slot, passphrase })
}

impl Cut<'_> {
    fn told(&self, done: &str, error: &str) -> String {
        format!("{} cut after {done}: {error}", KINDS[self.call.kind()])
    }

    /// The image before with these writes done.
    fn image<'w>(&self, done: impl IntoIterator<Item = &'w SectorWrite>) -> Vec<u8> {
        let mut image = self.before.image.clone();
        carry_out(&mut image, done);
        image
    }

    /// Where the areas' writes of two sectors or more stand in the list.
    fn areas(&self) -> Vec<std::ops::Range<usize>> {
        let of_header = self.list.iter().enumerate().filter(|(_, write)| write.sector < 2).map(|(at, _)| at);
        let ends: Vec<usize> = of_header.step_by(2).collect();
        let starts = std::iter::once(0).chain(ends.iter().map(|end| end + 2));
        starts.zip(ends.clone()).map(|(start, end)| start..end).filter(|area| area.len() > 1).collect()
    }

    fn judge(&self, both: &mut Both, image: Vec<u8>) -> Result<(), String> {
        both.cuts.images[self.call.kind()] += 1;
        if both.show(&image)? != 0 {
            return Err("the header check fails".into());
        }
        self.judge_other_slots(both, &image)?;
        if let Call::Change { from, old, to, new, .. } = self.call {
            if !opens(both, &image, *from, old)? && !opens(both, &image, *to, new)? {
                return Err("neither the old passphrase nor the new one opens".into());
            }
        }
        self.judge_again(both, image)
    }

    /// The other slots open as they did before, if they did, with the same key.
    fn judge_other_slots(&self, both: &mut Both, image: &[u8]) -> Result<(), String> {
        for (open, before) in &self.others {
            let Call::OpenSlot { slot, .. } = open else { continue };
            let number = both.run(&mut image.to_vec(), open)?;
            if number != before.number {
                return Err(format!(
                    "slot {slot}, which was not touched, gives {number}, and {} before",
                    before.number
                ));
            }
            let now = both.model.step(image, open);
            if (now.opened, now.values) != (before.opened, before.values) {
                return Err(format!("slot {slot}, which was not touched, has another key or another cost"));
            }
            both.cuts.openings += 1;
        }
        Ok(())
    }

    /// The call once more; or, where the second slot of a change is enabled, a revoke of the first with the same filler.
    fn judge_again(&self, both: &mut Both, image: Vec<u8>) -> Result<(), String> {
        let h = Header::read(&image);
        let (call, revokes) = match self.call {
            Call::Change { from, to, filler, .. } if h.slot(*to).is_some_and(Slot::enabled) => {
                let list = vec![0x55; list_length(&h, &[*from]).ok_or("no such slot")?];
                (Call::Revoke { slot: *from, filler: filler.clone(), list }, true)
            }
            call => (call.clone(), false),
        };
        let mut again = image.clone();
        let number = both.run(&mut again, &call)?;
        if ![0, 15].contains(&number) {
            return Err(format!("{} is refused by {number}", KINDS[call.kind()]));
        }
        both.cuts.ends.add(number, revokes);
        if image.len() >= LONG_IMAGE {
            both.cuts.long_ends.add(number, revokes);
        }
        match again == self.after {
            true => Ok(()),
            false => Err(format!("{} does not make the uncut image", KINDS[call.kind()])),
        }
    }
}

/// Does the slot open with this passphrase, by library and model?
fn opens(both: &mut Both, image: &[u8], slot: u8, passphrase: &[u8]) -> Result<bool, String> {
    let open = Call::OpenSlot { slot, passphrase: passphrase.to_vec() };
    Ok(both.run(&mut image.to_vec(), &open)? == 0)
}
