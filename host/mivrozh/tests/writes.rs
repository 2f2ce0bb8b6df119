//! The lists of sector writes: which sectors, in which order and stages, with which bytes; that a list which is carried out
//! in full makes the image, that one which is cut can be ended, and what a buffer of another length gives.
use mivrozh::{Drive, FormatInput, Header, Profile, Refusal, Secret, SectorWrites, SlotInput};

const UUID: &str = "6a2b1f0e-3c4d-4e5f-8a9b-0c1d2e3f4a5b";
const SALT: [u8; 32] = [3; 32];
const ENTRY: usize = 516;
const COUNT: u32 = 1000;

fn key(profile: Profile) -> Secret {
    Secret::from((0..profile.key_bytes() as u8).collect::<Vec<u8>>())
}

fn passphrase(text: &str) -> Secret {
    Secret::from(text.as_bytes())
}

fn header(image: &[u8]) -> Header {
    Header::of(image).expect("a header")
}

// A drive with the passphrase "one" in this slot. Between the areas, and behind them, stands junk.
fn drive(profile: Profile, stripes: u32, slot: u8) -> Vec<u8> {
    let (mut image, key) = (vec![0; 2049 * 512], key(profile));
    let input = FormatInput::new(profile, &key, &SALT, COUNT, UUID).stripes(stripes);
    Drive::over(&mut image).format(&input).result.expect("a drive");
    image[8 * 512..].iter_mut().zip(0..).for_each(|(byte, at)| *byte = (at % 251 + 1) as u8);
    let list = &mut vec![0; header(&image).list_length(slot)];
    let _ = added(&mut image, slot, "one", list).expect("a passphrase");
    image
}

// The calls with all but the slot, the passphrase and the list fixed.
fn added<'l>(image: &mut [u8], slot: u8, new: &str, list: &'l mut [u8]) -> Result<SectorWrites<'l>, Refusal> {
    let (header, new) = (header(image), passphrase(new));
    let (key, random) = (Secret::from((0..header.key_bytes as u8).collect::<Vec<u8>>()), header.random_length(slot));
    Drive::over(image).add(slot, &key, &SlotInput::new(&new, &SALT, COUNT, &vec![5; random]), list).result
}

fn changed<'l>(image: &mut [u8], from: u8, to: u8, list: &'l mut [u8]) -> Result<SectorWrites<'l>, Refusal> {
    let (header, old, new) = (header(image), passphrase("one"), passphrase("two"));
    let (random, filler) = (vec![6; header.random_length(to)], vec![7; header.area_length(from)]);
    Drive::over(image).change(from, &old, to, &SlotInput::new(&new, &SALT, COUNT, &random), &filler, list).result
}

fn revoked<'l>(image: &mut [u8], slot: u8, list: &'l mut [u8]) -> Result<SectorWrites<'l>, Refusal> {
    let filler = vec![7; header(image).area_length(slot)];
    Drive::over(image).revoke(slot, &filler, list).result
}

fn sectors(writes: SectorWrites) -> Vec<u32> {
    writes.into_iter().map(|write| write.sector).collect()
}

// So many of the writes, carried out.
fn carried_out(before: &[u8], writes: SectorWrites, many: usize) -> Vec<u8> {
    let mut image = before.to_vec();
    for write in writes.into_iter().take(many) {
        let at = write.offset() as usize;
        image[at..at + 512].copy_from_slice(write.bytes);
    }
    image
}

#[test]
fn the_sectors_of_drives_with_one_stripe() {
    for &profile in Profile::ALL {
        let (mut image, mut list, mut both) = (drive(profile, 1, 2), [0; 3 * ENTRY], [0; 6 * ENTRY]);
        assert_eq!(sectors(added(&mut image, 1, "first", &mut list).expect("slot 1")), [8, 1, 0]);
        assert_eq!(sectors(added(&mut image, 8, "one", &mut list).expect("slot 8")), [64, 1, 0]);
        assert_eq!(sectors(changed(&mut image, 8, 7, &mut both).expect("a change")), [56, 1, 0, 64, 1, 0]);
        assert_eq!(sectors(revoked(&mut image, 1, &mut list).expect("slot 1")), [8, 1, 0]);
    }
}

#[test]
fn lengths() {
    for (stripes, length) in [(1, 3), (8, 3), (9, 4), (16, 4), (17, 5)] {
        assert_eq!(header(&drive(Profile::Key512, stripes, 1)).list_length(3), length * ENTRY);
    }
    let mut image = vec![0; 4096 * 512];
    let key = key(Profile::Key256);
    Drive::over(&mut image)
        .format(&FormatInput::new(Profile::Key256, &key, &SALT, COUNT, UUID))
        .result
        .expect("a drive");
    assert_eq!((header(&image).list_length(8), header(&image).change_list_length(8, 1)), (130_032, 260_064));
    // Slots of another maker may differ in their stripes.
    image[208 + 48 + 44..][..4].copy_from_slice(&17u32.to_be_bytes());
    assert_eq!([(1, 2), (2, 1), (2, 2)].map(|(from, to)| header(&image).change_list_length(from, to)), {
        [130_032 + 4 * ENTRY, 130_032 + 4 * ENTRY, 8 * ENTRY]
    });
}

// The stages of an area of 9 stripes of 64 bytes: two sectors, of which the second keeps its rest.
#[test]
fn stages_and_the_rest_of_the_last_sector() {
    let mut image = drive(Profile::Key512, 9, 1);
    let before = image.clone();
    let mut list = vec![0; header(&image).change_list_length(1, 7)];
    let writes = changed(&mut image, 1, 7, &mut list).expect("a change");
    let stages: Vec<Vec<u32>> = writes.stages().map(sectors).collect();
    assert_eq!(stages, [vec![56, 57], vec![1], vec![0], vec![8, 9], vec![1], vec![0]]);
    for write in writes.into_iter().filter(|write| [9, 57].contains(&write.sector)) {
        let (at, rest) = (write.offset() as usize, 9 * 64 - 512);
        assert_ne!(write.bytes[..rest], before[at..at + rest]);
        assert_eq!(write.bytes[rest..], before[at + rest..at + 512]);
    }
}

#[test]
fn a_list_that_is_carried_out_makes_the_image() {
    for &profile in Profile::ALL {
        for slot in [2, 7, 8] {
            let mut image = drive(profile, 17, 1);
            let mut list = vec![0xEE; header(&image).list_length(slot)];
            let mut both = vec![0xEE; header(&image).change_list_length(1, slot)];
            let before = image.clone();
            let writes = added(&mut image, slot, "two", &mut list).expect("a free slot");
            assert!(carried_out(&before, writes, usize::MAX) == image);
            let before = image.clone();
            let writes = revoked(&mut image, slot, &mut list).expect("slot 1 is in use too");
            assert!(carried_out(&before, writes, usize::MAX) == image);
            let before = image.clone();
            let writes = changed(&mut image, 1, slot, &mut both).expect("a free slot");
            assert!(carried_out(&before, writes, usize::MAX) == image);
        }
    }
}

// At every cut the header passes, slot 4 opens, and in a change the old slot or the new one; the call given again makes the
// uncut image, or is refused since that is there. Once the new slot is enabled, revoking the old one does so.
#[test]
fn a_cut_list_is_ended_by_the_same_call() {
    for (from, to) in [(1, 2), (1, 7), (7, 8), (8, 7)] {
        let mut before = drive(Profile::Key256, 17, from);
        let _ = added(&mut before, 4, "four", &mut [0; 4 * ENTRY]).expect("slot 4");
        let (mut after, mut list) = (before.clone(), [0; 8 * ENTRY]);
        let writes = changed(&mut after, from, to, &mut list).expect("a change");
        for done in 0..=8 {
            let mut cut = carried_out(&before, writes, done);
            let drive = Drive::over(&cut[..]);
            let opens = |slot, text| drive.open_slot(slot, &passphrase(text)).result.is_ok();
            assert!(opens(4, "four") && (opens(from, "one") || opens(to, "two")), "{from} to {to}, {done} writes");
            let enabled = |slot| drive.slots().expect("the slots").is_enabled(slot);
            let (old, new) = (enabled(from), enabled(to));
            let said = match (old, new) {
                (_, false) => changed(&mut cut, from, to, &mut [0; 8 * ENTRY]).map(|_| ()),
                (true, true) => revoked(&mut cut, from, &mut [0; 4 * ENTRY]).map(|_| ()),
                (false, true) => Ok(()),
            };
            assert_eq!(said, Ok(()), "{from} to {to}, {done} writes");
            assert!(cut == after, "{from} to {to}, {done} writes");
        }
    }
}

#[test]
fn a_cut_addition_or_revocation_is_ended_by_the_same_call() {
    for slot in [2, 7, 8] {
        let (without, mut list) = (drive(Profile::Key256, 17, 1), [0; 4 * ENTRY]);
        let mut with = without.clone();
        let adding = added(&mut with, slot, "two", &mut list).expect("a free slot");
        let (mut emptied, mut list) = (with.clone(), [0; 4 * ENTRY]);
        let revoking = revoked(&mut emptied, slot, &mut list).expect("slot 1 is in use too");
        for done in 0..=4 {
            let mut cut = carried_out(&without, adding, done);
            assert!(Drive::over(&cut[..]).open_slot(1, &passphrase("one")).result.is_ok());
            let again = added(&mut cut, slot, "two", &mut [0; 4 * ENTRY]).err();
            assert!(cut == with && [None, Some(Refusal::WrongState)].contains(&again), "{done} writes: {again:?}");
            let mut cut = carried_out(&with, revoking, done);
            assert!(Drive::over(&cut[..]).open_slot(1, &passphrase("one")).result.is_ok());
            let again = revoked(&mut cut, slot, &mut [0; 4 * ENTRY]).err();
            assert!(cut == emptied && [None, Some(Refusal::WrongState)].contains(&again), "{done} writes: {again:?}");
        }
    }
}

type Working = fn(&mut [u8], &mut [u8]) -> Result<(), Refusal>;

// Image and buffer stay as they were, also where only the last check fails. The slots 1, 2 and 3 differ in their stripes.
#[test]
fn a_buffer_of_another_length_is_refused_and_stays() {
    let mut image = drive(Profile::Key256, 40, 1);
    for (slot, stripes) in [(2, 17u32), (3, 1)] {
        image[208 + 48 * (slot - 1) + 44..][..4].copy_from_slice(&stripes.to_be_bytes());
    }
    let _ = added(&mut image, 3, "three", &mut [0; 3 * ENTRY]).expect("slot 3");
    let calls: [(&str, Working, usize); 3] = [
        ("add", |image, list| added(image, 2, "two", list).map(|_| ()), 4),
        ("change", |image, list| changed(image, 1, 2, list).map(|_| ()), 5 + 4),
        ("revoke", |image, list| revoked(image, 1, list).map(|_| ()), 5),
    ];
    for (name, call, entries) in calls {
        let right = entries * ENTRY;
        let others = [0, 1, 512, ENTRY, 3 * ENTRY, right - 1, right + 1, right - ENTRY, right + ENTRY, 2 * right];
        for length in others.into_iter().filter(|&length| length != right) {
            let (mut tried, mut list) = (image.clone(), vec![0xEE; length]);
            assert_eq!(call(&mut tried, &mut list), Err(Refusal::BadBuffer), "{name}, {length} bytes");
            assert!(tried == image && list.iter().all(|&byte| byte == 0xEE), "{name}, {length} bytes");
        }
        let (mut tried, mut list) = (image.clone(), vec![0xEE; right]);
        assert_eq!(call(&mut tried, &mut list), Ok(()), "{name}");
        assert!(tried != image && numbers(&list).ends_with(&[1, 0]), "{name}");
    }
}

// The numbers in a filled buffer, read without the binding.
fn numbers(list: &[u8]) -> Vec<u32> {
    let number = |entry: &[u8]| u32::from_be_bytes([entry[0], entry[1], entry[2], entry[3]]);
    list.chunks_exact(ENTRY).map(number).collect()
}

// 20 stands after 16 and before 17; every other refusal leaves a buffer of the right length as it was, too.
#[test]
fn the_buffer_is_judged_after_the_lengths_and_before_the_key() {
    let profile = Profile::Key512;
    let image = drive(profile, 9, 1);
    let (key, wrong, one, two) = (key(profile), Secret::from(vec![9; 64]), passphrase("one"), passphrase("two"));
    let (random, filler) = ([5; 8 * 64], [7; 9 * 64]);
    let input = |random| SlotInput::new(&two, &SALT, COUNT, random);
    let slow = |count| SlotInput::new(&two, &SALT, count, &random);
    type Tried<'a> = &'a dyn Fn(&mut Drive<&mut [u8]>, &mut [u8]) -> Option<Refusal>;
    let refused: [(Tried, usize, Refusal); 12] = [
        (&|drive, list| drive.add(9, &key, &input(&random), list).result.err(), 4, Refusal::BadSlot),
        (&|drive, list| drive.add(1, &key, &input(&random), list).result.err(), 4, Refusal::WrongState),
        (&|drive, list| drive.add(2, &key, &slow(999), list).result.err(), 3, Refusal::LowCount),
        (&|drive, list| drive.add(2, &wrong, &input(&random[1..]), list).result.err(), 3, Refusal::BadLength),
        (&|drive, list| drive.add(2, &wrong, &input(&random), list).result.err(), 3, Refusal::BadBuffer),
        (&|drive, list| drive.add(2, &wrong, &input(&random), list).result.err(), 4, Refusal::WrongKey),
        (
            &|drive, list| drive.change(1, &two, 2, &input(&random), &filler[1..], list).result.err(),
            7,
            Refusal::BadLength,
        ),
        (&|drive, list| drive.change(1, &two, 2, &input(&random), &filler, list).result.err(), 7, Refusal::BadBuffer),
        (&|drive, list| drive.change(1, &two, 2, &input(&random), &filler, list).result.err(), 8, Refusal::WrongKey),
        (&|drive, list| drive.change(1, &one, 1, &input(&random), &filler, list).result.err(), 8, Refusal::WrongState),
        (&|drive, list| drive.revoke(2, &filler, list).result.err(), 4, Refusal::WrongState),
        (&|drive, list| drive.revoke(1, &filler, list).result.err(), 3, Refusal::LastSlot),
    ];
    for (at, (call, entries, refusal)) in refused.into_iter().enumerate() {
        let (mut tried, mut list) = (image.clone(), vec![0xEE; entries * ENTRY]);
        assert_eq!(call(&mut Drive::over(&mut tried[..]), &mut list), Some(refusal), "call {at}");
        assert!(tried == image && list.iter().all(|&byte| byte == 0xEE), "call {at}");
    }
}

// The numbers of the sectors are printed, and none of their bytes.
#[test]
fn what_is_printed() {
    let mut image = drive(Profile::Key256, 1, 1);
    let mut list = [0; 3 * ENTRY];
    let writes = added(&mut image, 8, "two", &mut list).expect("slot 8");
    let one = |sector: u32| format!("SectorWrite {{ sector: {sector}, .. }}");
    assert_eq!(format!("{writes:?}"), format!("[{}, {}, {}]", one(64), one(1), one(0)));
}
