//! What the engine shows of the key slots, on two screens: which are enabled, and beside that what their records say.
use crate::header::SLOTS;
use crate::{raw, Refusal};

/// Which key slots are enabled, by [`Drive::slots`](crate::Drive::slots). It is the engine's answer.
#[derive(Clone, Copy, Debug, PartialEq, Eq)]
pub struct Slots {
    enabled: [bool; SLOTS as usize],
}

/// What the header says of each key slot, by [`Drive::slot_details`](crate::Drive::slot_details). It is the engine's
/// answer.
#[derive(Clone, Copy, Debug, PartialEq, Eq)]
pub struct SlotDetails {
    slots: [Slot; SLOTS as usize],
}

/// One key slot. Its numbers are the header's, also where it is disabled.
#[derive(Clone, Copy, Debug, Default, PartialEq, Eq)]
#[non_exhaustive]
pub struct Slot {
    pub enabled: bool,
    /// Iterations of the derivation.
    pub count: u32,
    /// Where the area starts, in sectors of the image.
    pub start: u32,
    pub stripes: u32,
}

impl Slots {
    pub(crate) fn of(image: &[u8]) -> Result<Slots, Refusal> {
        let mut enabled = [0; SLOTS as usize];
        Refusal::answer(raw::slots(image, &mut enabled))?;
        Ok(Slots { enabled: enabled.map(|entry| entry == 1) })
    }

    /// Whether the slot is enabled; not where there is no such slot.
    pub fn is_enabled(&self, slot: u8) -> bool {
        self.enabled().any(|enabled| enabled == slot)
    }

    /// The first slot that is not enabled.
    pub fn free(&self) -> Option<u8> {
        (1..=SLOTS).find(|&slot| !self.is_enabled(slot))
    }

    /// The slots that are enabled, in rising order.
    pub fn enabled(&self) -> impl Iterator<Item = u8> + '_ {
        (1..=SLOTS).zip(&self.enabled).filter(|(_, enabled)| **enabled).map(|(slot, _)| slot)
    }
}

impl SlotDetails {
    pub(crate) fn of(image: &[u8]) -> Result<SlotDetails, Refusal> {
        const ZEROS: [u32; SLOTS as usize] = [0; SLOTS as usize];
        let (mut enabled, mut counts, mut starts, mut stripes) = ([0; SLOTS as usize], ZEROS, ZEROS, ZEROS);
        Refusal::answer(raw::slot_details(image, &mut enabled, &mut counts, &mut starts, &mut stripes))?;
        let slot =
            |at: usize| Slot { enabled: enabled[at] == 1, count: counts[at], start: starts[at], stripes: stripes[at] };
        Ok(SlotDetails { slots: std::array::from_fn(slot) })
    }

    /// A slot, 1 to 8.
    pub fn slot(&self, number: u8) -> Option<&Slot> {
        self.slots.get(usize::from(number).checked_sub(1)?)
    }

    /// The slots with their numbers, in rising order.
    pub fn iter(&self) -> impl Iterator<Item = (u8, &Slot)> {
        (1..=SLOTS).zip(&self.slots)
    }
}
