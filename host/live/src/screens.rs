//! What each side shows of the slots: cryptsetup by luksDump, qemu by qemu-img info, we by both screens, and the model.

use crate::json::Json;
use crate::work::{Outcome, SLOTS};
use model::screens::second;

/// A slot as it is shown. Of disabled slots cryptsetup says no number, and qemu the start alone.
#[derive(Clone, Copy, Debug, PartialEq)]
pub struct Shown {
    pub enabled: bool,
    pub count: Option<u64>,
    /// In sectors.
    pub start: Option<u64>,
    pub stripes: Option<u64>,
}

impl Shown {
    pub fn whole(enabled: bool, count: u32, start: u32, stripes: u32) -> Shown {
        let said = |number: u32| Some(u64::from(number));
        Shown { enabled, count: said(count), start: said(start), stripes: said(stripes) }
    }

    /// Whether it says everything.
    fn is_whole(&self) -> bool {
        self.count.is_some() && self.start.is_some() && self.stripes.is_some()
    }

    /// Whether a peer's slot has the same state, and the same numbers as far as the peer says them.
    fn agrees(&self, peers: &Shown) -> bool {
        let same = |ours: Option<u64>, theirs: Option<u64>| theirs.is_none() || ours == theirs;
        self.enabled == peers.enabled
            && same(self.count, peers.count)
            && same(self.start, peers.start)
            && same(self.stripes, peers.stripes)
    }
}

/// The enabled slots, counted from 1.
pub fn enabled(slots: &[Shown]) -> Vec<u8> {
    (1..).zip(slots).filter(|(_, slot)| slot.enabled).map(|(number, _)| number).collect()
}

/// Do all of our slots, with every number, agree with a peer's?
pub fn agree(ours: &[Shown], peers: &[Shown]) -> bool {
    ours.len() == SLOTS
        && peers.len() == SLOTS
        && ours.iter().zip(peers).all(|(our, peer)| our.is_whole() && our.agrees(peer))
}

/// Eight slots, each enabled one with every number: else nothing was understood of what was printed.
fn understood(slots: Option<Vec<Shown>>, printed: &str) -> Outcome<Vec<Shown>> {
    let whole = |slots: &Vec<Shown>| slots.len() == SLOTS && slots.iter().all(|slot| !slot.enabled || slot.is_whole());
    slots.filter(whole).ok_or_else(|| format!("these are not eight slots: {printed}"))
}

/// What the model shows, of disabled slots too.
pub fn of_model(image: &[u8]) -> Vec<Shown> {
    let shown = second(image);
    let slot = |at| Shown::whole(shown.enabled[at] == 1, shown.counts[at], shown.starts[at], shown.stripes[at]);
    (0..SLOTS).map(slot).collect()
}

/// `mivrozh slots --json`, with or without details; the numbers of the slots must rise from 1.
pub fn of_tool(printed: &str) -> Option<Vec<Shown>> {
    let object = Json::of(printed)?;
    let slots = object.get("slots")?.list()?.iter().zip(1..).map(|(slot, number)| {
        let field = |key: &str| slot.get(key).and_then(Json::number);
        let enabled = slot.get("enabled")?.bool()?;
        let shown = Shown { enabled, count: field("count"), start: field("start"), stripes: field("stripes") };
        (field("slot")? == number).then_some(shown)
    });
    slots.collect()
}

/// `cryptsetup luksDump`: a line for each slot, and for the enabled ones lines with their numbers.
pub fn of_luks_dump(printed: &str) -> Outcome<Vec<Shown>> {
    let mut slots: Vec<Shown> = Vec::new();
    for line in printed.lines() {
        let Some((name, value)) = line.split_once(':') else { continue };
        let (name, value) = (name.trim(), value.trim());
        if name.starts_with("Key Slot ") {
            slots.push(Shown { enabled: value == "ENABLED", count: None, start: None, stripes: None });
        } else if let Some(slot) = slots.last_mut() {
            match name {
                "Iterations" => slot.count = value.parse().ok(),
                "Key material offset" => slot.start = value.parse().ok(),
                "AF stripes" => slot.stripes = value.parse().ok(),
                _ => {}
            }
        }
    }
    understood(Some(slots), printed)
}

/// The payload start that `cryptsetup luksDump` shows, in sectors.
pub fn payload_of_luks_dump(printed: &str) -> Outcome<u64> {
    let said = printed.lines().find_map(|line| line.strip_prefix("Payload offset:")?.trim().parse().ok());
    said.ok_or_else(|| format!("this has no payload start: {printed}"))
}

/// A number of bytes as sectors, if they are whole.
fn sectors(offset: u64) -> Option<u64> {
    offset.is_multiple_of(512).then_some(offset / 512)
}

/// What `qemu-img info --output=json` says of the drive as such.
fn luks_of_qemu(object: &Json) -> Option<&Json> {
    object.get("format-specific")?.get("data")
}

/// The payload start that `qemu-img info --output=json` shows, in sectors.
pub fn payload_of_qemu(printed: &str) -> Outcome<u64> {
    let offset = || luks_of_qemu(&Json::of(printed)?)?.get("payload-offset")?.number();
    offset().and_then(sectors).ok_or_else(|| format!("this has no payload start: {printed}"))
}

/// `qemu-img info --output=json`: offsets are in bytes.
pub fn of_qemu(printed: &str) -> Outcome<Vec<Shown>> {
    let slots = || {
        let object = Json::of(printed)?;
        let slots = luks_of_qemu(&object)?.get("slots")?.list()?.iter().map(|slot| {
            let field = |key: &str| slot.get(key).and_then(Json::number);
            Some(Shown {
                enabled: slot.get("active")?.bool()?,
                count: field("iters"),
                start: field("key-offset").and_then(sectors),
                stripes: field("stripes"),
            })
        });
        slots.collect::<Option<Vec<Shown>>>()
    };
    understood(slots(), printed)
}

#[cfg(test)]
mod tests {
    use super::*;

    /// Slots 1 and 3 are enabled.
    fn shown(count: u64) -> Vec<Shown> {
        let slot = |at: u64| Shown {
            enabled: at == 0 || at == 2,
            count: Some(if at == 2 { count } else { 7 }),
            start: Some(8 * (at + 1)),
            stripes: Some(4000),
        };
        (0..8).map(slot).collect()
    }

    fn dump(count: u64) -> String {
        let slot = |number: usize, slot: &Shown| match slot.enabled {
            false => format!("Key Slot {number}: DISABLED\n"),
            true => format!(
                "Key Slot {number}: ENABLED\n\tIterations:         \t{}\n\tSalt:               \t01 02\n\
                 \tKey material offset:\t{}\n\tAF stripes:            \t4000\n",
                slot.count.unwrap_or(0),
                slot.start.unwrap_or(0)
            ),
        };
        shown(count).iter().enumerate().map(|(number, one)| slot(number, one)).collect()
    }

    fn info(count: u64) -> String {
        let slot = |slot: &Shown| match (slot.enabled, slot.start.unwrap_or(0) * 512) {
            (false, at) => format!("{{\"active\": false, \"key-offset\": {at}}}"),
            (true, at) => {
                let count = slot.count.unwrap_or(0);
                format!("{{\"active\": true, \"iters\": {count}, \"key-offset\": {at}, \"stripes\": 4000}}")
            }
        };
        let slots: Vec<String> = shown(count).iter().map(slot).collect();
        format!("{{\"format-specific\": {{\"data\": {{\"slots\": [{}]}}}}}}", slots.join(", "))
    }

    #[test]
    fn what_peers_show_is_compared() {
        for (theirs, other) in
            [(of_luks_dump(&dump(1003)), of_luks_dump(&dump(1004))), (of_qemu(&info(1003)), of_qemu(&info(1004)))]
        {
            let (theirs, other) = (theirs.expect("slots"), other.expect("slots"));
            assert_eq!(enabled(&theirs), [1, 3]);
            assert!(agree(&shown(1003), &theirs) && !agree(&shown(1003), &other));
            for at in 0..8 {
                let mut ours = shown(1003);
                ours[at].enabled = !ours[at].enabled;
                assert!(!agree(&ours, &theirs), "the state of slot {}", at + 1);
                let mut ours = shown(1003);
                ours[at].count = None;
                assert!(!agree(&ours, &theirs), "slot {} has no count", at + 1);
            }
            let mut ours = shown(1003);
            ours[2].stripes = Some(3999);
            assert!(!agree(&ours, &theirs));
            ours = shown(1003);
            ours[2].start = Some(25);
            assert!(!agree(&ours, &theirs));
            assert!(!agree(&shown(1003)[1..], &theirs));
        }
    }

    #[test]
    fn what_is_not_understood_is_no_agreement() {
        assert!(of_luks_dump("").is_err() && of_qemu("{}").is_err());
        assert!(of_luks_dump(&dump(1003).replace("Iterations", "Times")).is_err());
        assert!(of_luks_dump(&dump(1003).replace("Key Slot 7: DISABLED\n", "")).is_err());
        assert!(of_qemu(&info(1003).replace("iters", "times")).is_err());
        assert!(of_qemu(&info(1003).replace("active", "state")).is_err());
    }

    #[test]
    fn payload_starts_are_read_in_sectors() {
        let dump = "Version:       \t1\nPayload offset:\t4096\nMK bits:       \t512\n";
        assert_eq!(payload_of_luks_dump(dump), Ok(4096));
        assert!(payload_of_luks_dump("MK bits:       \t512\n").is_err());
        let info = |offset: u64| format!("{{\"format-specific\": {{\"data\": {{\"payload-offset\": {offset}}}}}}}");
        assert_eq!(payload_of_qemu(&info(2_097_152)), Ok(4096));
        assert!(payload_of_qemu(&info(2_097_153)).is_err() && payload_of_qemu("{}").is_err());
    }

    #[test]
    fn the_tools_slots_count_from_1() {
        let one = |slot: u8, rest: &str| format!("{{\"slot\":{slot},\"enabled\":true{rest}}}");
        let all = |first: &str| format!("{{\"slots\":[{first},{}]}}", one(2, ""));
        let numbers = ",\"count\":1000,\"start\":8,\"stripes\":40";
        let read = of_tool(&all(&one(1, numbers))).expect("slots");
        let whole = Shown { enabled: true, count: Some(1000), start: Some(8), stripes: Some(40) };
        assert_eq!(read, [whole, Shown { count: None, start: None, stripes: None, ..whole }]);
        assert_eq!(of_tool(&all(&one(0, numbers))), None);
        assert_eq!(of_tool("slots"), None);
    }
}
