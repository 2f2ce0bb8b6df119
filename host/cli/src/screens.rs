//! What is shown of the key slots, on two screens, and how long their trials take: as a table for people, and as JSON for
//! programs.
use crate::amounts::{duration, grouped};
use crate::rate::{Rates, Work};
use mivrozh::header::SLOTS;
use mivrozh::{Header, SlotDetails, Slots};
use std::fmt::Write;

/// Which slots are enabled, and nothing else.
pub fn table(slots: &Slots) -> String {
    let mut table = String::from("slot  cryptsetup's  state\n");
    for slot in 1..=SLOTS {
        let _ = writeln!(table, "{}", row(slot, slots.is_enabled(slot)));
    }
    table
}

/// Beside that, count, area start and stripes of each slot. The headings are as wide as the largest numbers.
pub fn details_table(details: &SlotDetails) -> String {
    let mut table = String::from("slot  cryptsetup's  state     iterations  area start  stripes\n");
    for (number, slot) in details.iter() {
        let row = row(number, slot.enabled);
        let _ = writeln!(table, "{row:28}  {:10}  {:10}  {:7}", slot.count, slot.start, slot.stripes);
    }
    table
}

// What both tables have of a slot: its number, that of cryptsetup and qemu, and its state.
fn row(slot: u8, enabled: bool) -> String {
    format!("{slot:4}  {:12}  {}", slot - 1, if enabled { "enabled" } else { "disabled" })
}

pub fn json(slots: &Slots) -> String {
    object((1..=SLOTS).map(|slot| entry(slot, slots.is_enabled(slot))))
}

/// The numbers are the header's: `start` counts sectors of 512 bytes.
pub fn details_json(details: &SlotDetails) -> String {
    object(details.iter().map(|(number, slot)| {
        let (count, start, stripes) = (slot.count, slot.start, slot.stripes);
        format!(r#"{},"count":{count},"start":{start},"stripes":{stripes}"#, entry(number, slot.enabled))
    }))
}

// The enabled slots of a header with what a trial of each makes.
fn trials(header: &Header) -> impl Iterator<Item = (u8, Work)> + '_ {
    let enabled = header.slots().iter().filter(|(_, slot)| slot.enabled);
    enabled.map(|(slot, _)| (slot, Work::trial(header, slot)))
}

/// How many HMAC values a trial of each enabled slot makes and a search that opens nothing, and how long they take here.
pub fn estimate_table(header: &Header, rates: &Rates) -> String {
    let mut table = String::from("slot  cryptsetup's      HMAC values  time here\n");
    let mut line = |who: String, work: Work| {
        let _ = writeln!(table, "{who:18}  {:>15}  {}", grouped(work.values()), duration(rates.time(work)));
    };
    for (slot, work) in trials(header) {
        line(format!("{slot:4}  {:12}", slot - 1), work);
    }
    line("failed search".into(), Work::search(header));
    let [keys, checksums] = [rates.derivation, rates.checksum].map(|rate| grouped(rate as u64));
    let _ = writeln!(table, "measured here: {keys} HMAC values a second for keys, {checksums} for checksums");
    table
}

/// The same, with times in seconds.
pub fn estimate_json(header: &Header, rates: &Rates) -> String {
    let figures = |work: Work| format!(r#""values":{},"seconds":{:.3}"#, work.values(), rates.time(work).as_secs_f64());
    let slots: Vec<String> =
        trials(header).map(|(slot, work)| format!("\n  {{\"slot\":{slot},{}}}", figures(work))).collect();
    let search = figures(Work::search(header));
    let rate = format!(r#""keys":{:.0},"checksums":{:.0}"#, rates.derivation, rates.checksum);
    format!("{{\"slots\":[{}\n],\"search\":{{{search}}},\"rates\":{{{rate}}}}}\n", slots.join(","))
}

fn entry(slot: u8, enabled: bool) -> String {
    format!(r#""slot":{slot},"enabled":{enabled}"#)
}

// One object, with a line for each slot.
fn object(entries: impl Iterator<Item = String>) -> String {
    let lines: Vec<String> = entries.map(|entry| format!("  {{{entry}}}")).collect();
    format!("{{\"slots\":[\n{}\n]}}\n", lines.join(",\n"))
}
