//! The ten commands. Each looks at the drive first, then asks for passphrases, then acts in memory, and writes last.
use crate::amounts::{duration, grouped, hmac_values};
use crate::arguments::Given;
use crate::bar;
use crate::failure::{self, shown, Failure};
use crate::image::{ImageFile, Purpose};
use crate::passphrase::{self, Source};
use crate::random;
use crate::rate::{self, Rates, Work};
use crate::screens;
use crate::signatures;
use crate::small;
use crate::transfer;
use mivrozh::header::{Header, MOST_STRIPES, SECTOR, SLOTS};
use mivrozh::{Counted, FormatInput, Hash, Opened, Profile, Refusal, Secret, SectorWrites, SlotInput, Slots};
use std::time::{Duration, Instant};

// Where the user says nothing of a derivation's length.
const ITERATIONS: u32 = 500_000;
const FIRST_SLOT: u8 = 1;

pub fn format(given: &Given) -> Result<(), Failure> {
    let source = Source::of(given, "--key-file")?;
    let profile = profile(given)?;
    let stripes = given.number_u32("--stripes")?.unwrap_or(MOST_STRIPES);
    let asked_for = given.number_u32("--checksum-iterations")?;
    let uuid = match given.value("--uuid") {
        Some(text) => text.to_string_lossy().into_owned(),
        None => random::uuid()?,
    };
    let key = random::bytes(profile.key_bytes())?;
    let mut image = ImageFile::open(given.image(), Purpose::Writing)?;

    let count = iterations(given, profile)?;
    let salt = random::salt()?;
    let checksum_count = asked_for.unwrap_or(rate::checksum_count(count));
    let input = FormatInput::new(profile, &key, &salt, checksum_count, &uuid).stripes(stripes);
    let work = Work { derivations: 0, checksums: checksum_count.into() };
    let made = bar::during("computing the key's checksum", profile, work, || image.drive().format(&input));
    made.result.map_err(|refusal| of_format(refusal, &input, &image))?;
    confirm_loss(given, &image)?;
    let passphrase = passphrase::new(&source, "Passphrase for the new drive: ")?;
    let mut list = vec![0; header_of(&image)?.list_length(FIRST_SLOT)];
    // The list is not needed: all of the new drive is written.
    let _ = add_key(&mut image, FIRST_SLOT, &key, &passphrase, count, &mut list)?;
    let payload = payload_shown(payload_units(&image)?);
    image.write_new(&header_of(&image)?)?;
    say(format!("made a drive with the UUID {uuid}; key slot {FIRST_SLOT} holds the passphrase\n{payload}"))
}

// A refusal of a format. Of a file that is too short it says how long it must be, also where its length is refused before that
// as no whole number of sectors.
fn of_format(refusal: Refusal, input: &FormatInput, image: &ImageFile) -> Failure {
    let (Refusal::ImageSize | Refusal::ShortImage) = refusal else { return Failure::refused(refusal) };
    let length = image.bytes().len();
    match small::before_payload(input.profile, input.stripes) {
        Ok(least) if length < least => {
            let sentence = format!(
                "{} has {length} bytes, and with this key size and these stripes a drive needs {} MiB ({least} bytes) and its \
                 payload; make it longer, or use a larger one",
                shown(image.path()),
                least >> 20
            );
            Failure::refused_because(refusal, sentence)
        }
        _ => Failure::refused(refusal),
    }
}

// How long a payload is.
fn payload_shown(units: u64) -> String {
    match units {
        0 => "the payload is empty; a longer file or a larger device has room for data".into(),
        units => format!("the payload has {} of 512 bytes", transfer::counted(units)),
    }
}

// The profile that was asked for. The hash is sha1 unless another is named: a reader may know no other.
fn profile(given: &Given) -> Result<Profile, Failure> {
    let hash = match given.value("--hash") {
        None => Hash::Sha1,
        Some(name) => name
            .to_str()
            .and_then(Hash::named)
            .ok_or_else(|| given.command.usage(&format!("--hash is sha1 or sha256, not '{}'", shown(name))))?,
    };
    let profile = match given.number("--key-size")? {
        Some(256) => Profile::of(hash, 32),
        None | Some(512) => Profile::of(hash, 64),
        Some(_) => None,
    };
    profile.ok_or_else(|| given.command.usage("--key-size is 256 or 512"))
}

// Asks before anything but zeros is overwritten. The engine has made the new drive in memory by now.
fn confirm_loss(given: &Given, image: &ImageFile) -> Result<(), Failure> {
    let header = header_of(image)?;
    let zeroed = image.beginning(header.payload_start as usize * SECTOR)?;
    let Some(found) = signatures::found(&zeroed) else { return Ok(()) };
    let holds = format!("{} holds {found}", shown(image.path()));
    let no_terminal = format!("{holds}, which would be lost; use another file, or --force to overwrite it");
    confirm(given, &format!("{holds}, which will be lost."), Failure::new(failure::CANNOT_WRITE, no_terminal))
}

// Asks for "yes" where there is a terminal; with --force there is nothing to ask.
fn confirm(given: &Given, question: &str, no_terminal: Failure) -> Result<(), Failure> {
    if given.has("--force") {
        return Ok(());
    }
    match passphrase::confirmed(question) {
        Ok(true) => Ok(()),
        Ok(false) => Err(Failure::new(failure::BAD_INPUT, "not confirmed; nothing was changed")),
        Err(_) => Err(no_terminal),
    }
}

pub fn add(given: &Given) -> Result<(), Failure> {
    given.check_standard_input()?;
    let (old_source, new_source) = (Source::of(given, "--key-file")?, Source::of(given, "--new-key-file")?);
    let (mut image, slots) = checked(given, Purpose::Writing)?;
    let count = iterations(given, header_of(&image)?.profile)?;
    let slot = free_slot(given.slot("--slot")?, &slots, |slot| Some(cut_addition(slot)))?;
    let opened = open(&mut image, None, &old_source, "Passphrase that the drive has: ")?;
    let passphrase = passphrase::new(&new_source, &format!("New passphrase, for key slot {slot}: "))?;
    let mut list = vec![0; header_of(&image)?.list_length(slot)];
    let writes = add_key(&mut image, slot, &opened.key, &passphrase, count, &mut list)?;
    image.carry_out(writes, |_| format!("{AGAIN}, with --slot {slot}"))?;
    say(format!("key slot {} holds the new passphrase", numbered(slot)))
}

pub fn change(given: &Given) -> Result<(), Failure> {
    given.check_standard_input()?;
    let (old_source, new_source) = (Source::of(given, "--key-file")?, Source::of(given, "--new-key-file")?);
    let (mut image, slots) = checked(given, Purpose::Writing)?;
    let header = header_of(&image)?;
    let count = iterations(given, header.profile)?;
    let from = given.slot("--slot")?;
    let asked = given.slot("--to")?;
    let to = free_slot(asked, &slots, |to| cut_change(from, to, &slots))?;
    let screen = screens::table(&slots);
    passphrase::show_before(&old_source, &screen)?;
    let (opened, old) = passphrase::tried(&old_source, "Old passphrase: ", |passphrase| {
        opened_to_change(&mut image, from, asked, passphrase)
    })?;
    let from = opened.slot;
    if !old_source.asks() {
        passphrase::show_before(&new_source, &screen)?;
    }
    let new = passphrase::new(&new_source, &format!("New passphrase, for key slot {to}: "))?;

    let (salt, random) = (random::salt()?, random::bytes(header.random_length(to))?);
    let filler = random::bytes(header.area_length(from))?;
    let input = SlotInput::new(&new, &salt, count, random.expose());
    let mut list = vec![0; header.change_list_length(from, to)];
    let work = Work::trial(&header, from).and(Work::derivation(&header, count));
    let changed = bar::during("changing the passphrase", header.profile, work, || {
        image.drive().change(from, &old, to, &input, filler.expose(), &mut list)
    });
    let writes = changed.result.map_err(|refusal| Failure::refused_slot(refusal, to))?;
    image.carry_out(writes, |flushed| match flushed {
        0..STAGES => format!("{AGAIN}, with --slot {from} --to {to}"),
        _ => finished_by_revoking(from, to),
    })?;
    say(format!("key slot {} holds the new passphrase, and key slot {} is free", numbered(to), numbered(from)))
}

pub fn revoke(given: &Given) -> Result<(), Failure> {
    given.required("--slot")?;
    let slot = given.slot("--slot")?.unwrap_or(0);
    let (mut image, slots) = checked(given, Purpose::Writing)?;
    let header = header_of(&image)?;
    let (filler, mut list) = (random::bytes(header.area_length(slot))?, vec![0; header.list_length(slot)]);
    let revoked = image.drive().revoke(slot, filler.expose(), &mut list);
    let writes = revoked.result.map_err(|refusal| of_revoked_slot(refusal, slot, &slots))?;
    let stay = match slots.enabled().count() - 1 {
        1 => "1 other key slot stays in use".into(),
        others => format!("{others} other key slots stay in use"),
    };
    let question = format!(
        "{}Key slot {} of {} will be revoked; {stay}. See first that one of them opens ('mivrozh test --slot N'): one whose \
         revocation was cut short opens nothing.",
        screens::table(&slots),
        numbered(slot),
        shown(image.path())
    );
    let no_terminal = "there is no terminal to ask at; use --force to revoke the key slot unasked";
    confirm(given, &question, Failure::usage(no_terminal))?;
    image.carry_out(writes, |_| AGAIN.into())?;
    say(format!("key slot {} is free; {stay}", numbered(slot)))
}

pub fn slots(given: &Given) -> Result<(), Failure> {
    let (image, slots) = checked(given, Purpose::Looking)?;
    let header = header_of(&image)?;
    transfer::print(&match (given.has("--details"), given.has("--json")) {
        (false, false) => screens::table(&slots),
        (false, true) => screens::json(&slots),
        (true, false) => screens::details_table(header.slots()),
        (true, true) => screens::details_json(header.slots()),
    })
}

// What is no printable ASCII is escaped: the header may have anything there.
pub fn uuid(given: &Given) -> Result<(), Failure> {
    let (image, _) = checked(given, Purpose::Looking)?;
    transfer::print(&format!("{}\n", header_of(&image)?.uuid().escape_ascii()))
}

pub fn test(given: &Given) -> Result<(), Failure> {
    let source = Source::of(given, "--key-file")?;
    let (mut image, _) = checked(given, Purpose::Reading)?;
    let (slot, mut cost) = (given.slot("--slot")?, Cost::default());
    let opened =
        passphrase::tried(&source, "Passphrase: ", |passphrase| opened_with(&mut image, slot, passphrase, &mut cost));
    // Of a passphrase that opens nothing too; not where nothing was derived.
    let cost = if given.has("--verbose") && cost.values > 0 { cost.shown() } else { String::new() };
    match opened {
        Ok((opened, _)) => transfer::print(&format!("key slot {} opens\n{cost}", opened.slot)),
        Err(refused) => {
            // That this cannot be printed does not hide the refusal.
            let _ = transfer::print(&cost);
            Err(refused)
        }
    }
}

pub fn estimate(given: &Given) -> Result<(), Failure> {
    let (image, _) = checked(given, Purpose::Looking)?;
    let header = header_of(&image)?;
    let rates = Rates::exact(header.profile).map_err(Failure::refused)?;
    transfer::print(&match given.has("--json") {
        false => screens::estimate_table(&header, &rates),
        true => screens::estimate_json(&header, &rates),
    })
}

pub fn read(given: &Given) -> Result<(), Failure> {
    let target = given.required("--out")?;
    let source = Source::of(given, "--key-file")?;
    let (mut image, _) = checked(given, Purpose::Reading)?;
    let first = given.number("--first")?.unwrap_or(0);
    let payload = payload_units(&image)?;
    let units = given.number("--units")?.unwrap_or(payload.saturating_sub(first));
    let opened = open(&mut image, given.slot("--slot")?, &source, "Passphrase: ")?;
    transfer::check_range(&mut image, &opened.key, first, units).map_err(|refusal| beyond(refusal, payload))?;
    let out = transfer::output(target, given.has("--force"), &image)?;
    transfer::read(&image, &opened.key, first..first + units, out)
}

pub fn write(given: &Given) -> Result<(), Failure> {
    given.check_standard_input()?;
    let data = given.required("--in")?;
    let source = Source::of(given, "--key-file")?;
    let (mut image, _) = checked(given, Purpose::Writing)?;
    let first = given.number("--first")?.unwrap_or(0);
    let payload = payload_units(&image)?;
    let (input, units) = transfer::input(data, &image)?;
    let opened = open(&mut image, given.slot("--slot")?, &source, "Passphrase: ")?;
    transfer::check_range(&mut image, &opened.key, first, units.unwrap_or(0))
        .map_err(|refusal| beyond(refusal, payload))?;
    let done = transfer::write(&image, &opened.key, first, input, units)?;
    say(format!("{} written", transfer::counted(done)))
}

fn payload_units(image: &ImageFile) -> Result<u64, Failure> {
    Ok((image.bytes().len() / SECTOR) as u64 - u64::from(header_of(image)?.payload_start))
}

// A slot's number, and what cryptsetup and qemu call it.
fn numbered(slot: u8) -> String {
    format!("{slot} (cryptsetup's {})", slot - 1)
}

// Says what was done. It is done by now, so a standard output that is closed or full is no failure.
fn say(what: String) -> Result<(), Failure> {
    let _ = transfer::print(&format!("{what}\n"));
    Ok(())
}

// How often a derivation is iterated: as often as was asked for, or as is done here in the time that was asked for.
fn iterations(given: &Given, profile: Profile) -> Result<u32, Failure> {
    match (given.number_u32("--iterations")?, given.number("--iter-time")?) {
        (Some(_), Some(_)) => Err(given.command.usage("--iterations and --iter-time cannot go together")),
        (Some(count), None) => Ok(count),
        (None, Some(milliseconds)) => rate::count_for(profile, Duration::from_millis(milliseconds)),
        (None, None) => Ok(ITERATIONS),
    }
}

// Opens the file and has the engine check the header and show the slots, before anything is asked for.
fn checked(given: &Given, purpose: Purpose) -> Result<(ImageFile, Slots), Failure> {
    let mut image = ImageFile::open(given.image(), purpose)?;
    let slots = image.drive().slots();
    let slots = slots.map_err(|refusal| Failure::refused_header(refusal, image.bytes()))?;
    Ok((image, slots))
}

// The header of a drive that the engine has checked or made.
fn header_of(image: &ImageFile) -> Result<Header, Failure> {
    Header::of(image.bytes()).map_err(Failure::refused)
}

// The slot for a new passphrase: the one that was asked for, if it is free, or the first free one. Where that is in use, or
// every slot is and none was asked for, it may be so since the command was given before and cut short; `cut_short` says what is
// to be done then, if it may.
fn free_slot(
    asked: Option<u8>,
    slots: &Slots,
    cut_short: impl FnOnce(Option<u8>) -> Option<String>,
) -> Result<u8, Failure> {
    let sentence = match (asked, slots.free()) {
        (None, Some(free)) => return Ok(free),
        (None, None) => "every key slot is in use; revoke one first".into(),
        (Some(slot), _) if !(1..=SLOTS).contains(&slot) => return Err(Failure::refused_slot(Refusal::BadSlot, slot)),
        (Some(slot), _) if !slots.is_enabled(slot) => return Ok(slot),
        (Some(slot), Some(free)) => {
            format!("key slot {} is in use; choose a free one, such as {}", numbered(slot), numbered(free))
        }
        (Some(slot), None) => {
            format!("key slot {} is in use, and so is every other; revoke one first", numbered(slot))
        }
    };
    let failure = Failure::refused_because(Refusal::WrongState, sentence);
    Err(match cut_short(asked) {
        Some(advice) => failure.with_advice(advice),
        None => failure,
    })
}

// What to do where not all of a list could be written. Where that was done all the same, the command is refused and says so.
const AGAIN: &str = "give the same command again";

// How many stages the list of one slot has: its area, sector 1, sector 0. In a change those of the new slot come first.
const STAGES: usize = 3;

// The new slot is on the disk. The old one is free by now where it is slot 8 and sector 1 was written.
fn finished_by_revoking(from: u8, to: u8) -> String {
    format!(
        "see that 'mivrozh test --slot {to}' opens with the new passphrase, and then revoke key slot {}, if it is still in use",
        numbered(from)
    )
}

// An addition to a slot that is in use, or where every slot is.
fn cut_addition(slot: Option<u8>) -> String {
    match slot {
        Some(slot) => format!("If an addition to it was cut short, it is done: 'mivrozh test --slot {slot}' tries it"),
        None => "If an addition was cut short, 'mivrozh test' with the new passphrase says whether it is done".into(),
    }
}

// A change to a slot that is in use, or where every slot is. Before the old one is revoked it should be seen that the new one
// opens: it may be in use for another reason.
fn cut_change(from: Option<u8>, to: Option<u8>, slots: &Slots) -> Option<String> {
    let Some(to) = to else {
        let opens = "where 'mivrozh test' opens with the new passphrase";
        return Some(format!("If a change was cut short: {opens}, revoke the old slot and no other"));
    };
    let old = match from {
        Some(from) if from == to || !(1..=SLOTS).contains(&from) => return None,
        Some(from) if slots.is_enabled(from) => format!("'mivrozh revoke --slot {from}'"),
        Some(from) => return Some(format!("If a change of key slot {from} to it was cut short, that is done")),
        None => "revoking the old slot, if it is still in use,".into(),
    };
    let opens = format!("'mivrozh test --slot {to}' opens with the new passphrase");
    Some(format!("If a change to it was cut short and {opens}, {old} ends that"))
}

fn open(image: &mut ImageFile, slot: Option<u8>, source: &Source, prompt: &str) -> Result<Opened, Failure> {
    let (opened, _) =
        passphrase::tried(source, prompt, |passphrase| opened_with(image, slot, passphrase, &mut Cost::default()))?;
    Ok(opened)
}

// What an opening made, and how long it took.
#[derive(Default)]
struct Cost {
    values: u64,
    took: Duration,
}

impl Cost {
    // Of a call, which is made here.
    fn of<T>(call: impl FnOnce() -> Counted<T>) -> (Cost, Counted<T>) {
        let start = Instant::now();
        let counted = call();
        (Cost { values: counted.values, took: start.elapsed() }, counted)
    }

    fn shown(&self) -> String {
        let rate = rate::per_second(self.values, self.took) as u64;
        format!("{} in {}, {} a second\n", hmac_values(self.values), duration(self.took), grouped(rate))
    }
}

// Opens one slot, or the first that the passphrase opens, and says what that has cost, also where it is refused.
fn opened_with(
    image: &mut ImageFile,
    slot: Option<u8>,
    passphrase: &Secret,
    cost: &mut Cost,
) -> Result<Opened, Failure> {
    let (header, drive) = (header_of(image)?, image.drive());
    let work = slot.map_or(Work::search(&header), |slot| Work::trial(&header, slot));
    let opened = bar::during("opening", header.profile, work, || {
        let (own, opened) = Cost::of(|| match slot {
            Some(slot) => drive.open_slot(slot, passphrase),
            None => drive.open(passphrase),
        });
        *cost = own;
        opened
    });
    let slots = drive.slots().map_err(Failure::refused)?;
    opened.result.map_err(|refusal| match (slot, refusal) {
        (Some(slot), refusal) => of_used_slot(refusal, slot, &slots),
        (None, Refusal::WrongKey) => {
            Failure::refused_because(refusal, "no key slot opens with this passphrase; try another")
        }
        (None, other) => Failure::refused(other),
    })
}

// Opens the slot whose passphrase is to be changed. Where a change of it was cut short, it may open no more; another slot is
// in use then. A slot that was asked for with `to` is free, so no change to it has come so far.
fn opened_to_change(
    image: &mut ImageFile,
    slot: Option<u8>,
    to: Option<u8>,
    passphrase: &Secret,
) -> Result<Opened, Failure> {
    let several = image.drive().slots().is_ok_and(|slots| slots.enabled().count() > 1);
    opened_with(image, slot, passphrase, &mut Cost::default()).map_err(|failure| match several && to.is_none() {
        true if failure.status == Refusal::WrongKey.number() => failure.with_advice(
            "If a change was cut short and 'mivrozh test' opens with the new passphrase, revoke the old slot",
        ),
        _ => failure,
    })
}

// A refusal about a slot that has to be in use.
fn of_used_slot(refusal: Refusal, slot: u8, slots: &Slots) -> Failure {
    let used: Vec<String> = slots.enabled().map(|slot| slot.to_string()).collect();
    match refusal {
        Refusal::WrongState => {
            let sentence = format!("key slot {} is not in use; these are: {}", numbered(slot), used.join(", "));
            Failure::refused_because(refusal, sentence)
        }
        Refusal::WrongKey => {
            let sentence = format!("key slot {slot} does not open with this passphrase; check both");
            Failure::refused_because(refusal, sentence)
        }
        other => Failure::refused_slot(other, slot),
    }
}

// A refusal of a revocation. A slot that is free may be so since the command was given before and cut short.
fn of_revoked_slot(refusal: Refusal, slot: u8, slots: &Slots) -> Failure {
    let failure = of_used_slot(refusal, slot, slots);
    match refusal {
        Refusal::WrongState => failure.with_advice("If its revocation was cut short, it is done"),
        _ => failure,
    }
}

fn beyond(refusal: Refusal, payload: u64) -> Failure {
    match refusal {
        Refusal::BadRange if payload == 0 => Failure::refused_because(refusal, payload_shown(payload)),
        Refusal::BadRange => {
            let sentence =
                format!("the units lie outside the payload, which has {payload}; use a smaller first unit or fewer");
            Failure::refused_because(refusal, sentence)
        }
        other => Failure::refused(other),
    }
}

// Adds the key to a slot, in memory, and gives what is to be written to the disk.
fn add_key<'l>(
    image: &mut ImageFile,
    slot: u8,
    key: &Secret,
    passphrase: &Secret,
    count: u32,
    list: &'l mut [u8],
) -> Result<SectorWrites<'l>, Failure> {
    let header = header_of(image)?;
    let (salt, random) = (random::salt()?, random::bytes(header.random_length(slot))?);
    let input = SlotInput::new(passphrase, &salt, count, random.expose());
    let work = Work::checksum(&header).and(Work::derivation(&header, count));
    let added =
        bar::during("adding the passphrase", header.profile, work, || image.drive().add(slot, key, &input, list));
    added.result.map_err(|refusal| Failure::refused_slot(refusal, slot))
}
