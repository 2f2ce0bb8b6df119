//! The safe binding: the calls on a drive, every refusal with its number and sentence.
use mivrozh::header::Names;
use mivrozh::{Drive, FormatInput, Hash, Header, PayloadUnit, Profile, Refusal, Secret, SlotInput};

const UUID: &str = "6a2b1f0e-3c4d-4e5f-8a9b-0c1d2e3f4a5b";
const COUNT: u32 = 1000;
const STRIPES: u32 = 9;
const UNITS: usize = 4;
const SALT: [u8; 32] = [3; 32];

fn key(profile: Profile) -> Secret {
    Secret::from((0..profile.key_bytes() as u8).collect::<Vec<u8>>())
}

fn passphrase(text: &str) -> Secret {
    Secret::from(text.as_bytes())
}

fn format_input<'a>(profile: Profile, key: &'a Secret) -> FormatInput<'a> {
    FormatInput::new(profile, key, &SALT, COUNT, UUID).stripes(STRIPES)
}

fn slot_input<'a>(passphrase: &'a Secret, random: &'a [u8]) -> SlotInput<'a> {
    SlotInput::new(passphrase, &SALT, COUNT, random)
}

// An image that holds a drive with the passphrase "one" in slot 1.
fn image(profile: Profile) -> Vec<u8> {
    let mut image = vec![0; (2048 + UNITS) * 512];
    let mut drive = Drive::over(&mut image);
    let key = key(profile);
    drive.format(&format_input(profile, &key)).result.expect("a drive");
    let (random, mut list) = buffers(&drive.header().expect("a header"), 1);
    let _ = drive.add(1, &key, &slot_input(&passphrase("one"), &random), &mut list).result.expect("a passphrase");
    image
}

// Random bytes for an addition to a slot, and its list buffer.
fn buffers(header: &Header, slot: u8) -> (Vec<u8>, Vec<u8>) {
    (vec![5; header.random_length(slot)], vec![0; header.list_length(slot)])
}

#[test]
fn the_life_of_a_drive() {
    for &profile in Profile::ALL {
        let (mut image, key) = (image(profile), key(profile));
        let mut drive = Drive::over(&mut image);
        let header = drive.header().expect("a header");
        assert_eq!(header.key_bytes as usize, profile.key_bytes());
        assert_eq!(header.payload_start, 2048);
        assert_eq!(Names::of(drive.image()).and_then(|names| names.profile()), Some(profile));
        assert_eq!(header.uuid(), UUID.as_bytes());
        assert_eq!(drive.slots().expect("the slots").free(), Some(2));
        let (random, mut list) = buffers(&header, 7);
        let (filler, mut both) = (vec![7; header.area_length(1)], vec![0; header.change_list_length(7, 3)]);

        let opened = drive.open(&passphrase("one")).result.expect("slot 1 opens");
        assert_eq!((opened.slot, opened.key.expose()), (1, key.expose()));
        let _ = drive
            .add(7, &opened.key, &slot_input(&passphrase("two"), &random), &mut list)
            .result
            .expect("slot 7 is free");
        assert_eq!(drive.open(&passphrase("two")).result.expect("slot 7 opens").slot, 7);
        let (two, three) = (passphrase("two"), passphrase("three"));
        let _ = drive.change(7, &two, 3, &slot_input(&three, &random), &filler, &mut both).result.expect("a change");
        assert_eq!(drive.open_slot(3, &passphrase("three")).result.expect("slot 3 opens").key.expose(), key.expose());
        let _ = drive.revoke(1, &filler, &mut list).result.expect("slot 3 is in use too");
        assert_eq!(drive.open(&passphrase("one")).result.err(), Some(Refusal::WrongKey));
        assert!(drive.slots().expect("the slots").enabled().eq([3]));

        let (plain, mut back) = ([9; 1024], [0; 1024]);
        drive.write(&key, PayloadUnit(1), 2, &plain).result.expect("two units");
        drive.read(&key, PayloadUnit(1), 2, &mut back).result.expect("two units");
        assert_eq!(plain, back);
        assert_eq!(drive.check(), Ok(()));
    }
}

// Both screens, and the lengths that go with them, of a drive with the slots 1 and 7.
#[test]
fn the_slots_are_shown() {
    for &profile in Profile::ALL {
        let (mut image, key) = (image(profile), key(profile));
        let mut drive = Drive::over(&mut image);
        let (random, mut list) = buffers(&drive.header().expect("a header"), 7);
        let two = passphrase("two");
        let _ =
            drive.add(7, &key, &SlotInput::new(&two, &SALT, 1007, &random), &mut list).result.expect("slot 7 is free");
        let slots = drive.slots().expect("the slots");
        assert!(slots.enabled().eq([1, 7]));
        assert!((0..=255).filter(|&slot| slots.is_enabled(slot)).eq([1, 7]));
        assert_eq!(slots.free(), Some(2));

        let (details, header) = (drive.slot_details().expect("the slots"), drive.header().expect("a header"));
        let shown = details.iter().map(|(number, slot)| (number, slot.enabled, slot.count, slot.start, slot.stripes));
        let count = |slot| if slot == 1 { COUNT } else { 1007 * u32::from(slot == 7) };
        assert!(shown.eq((1..=8).map(|k| (k, slots.is_enabled(k), count(k), 8 * u32::from(k), STRIPES))));
        assert_eq!(*header.slots(), details);
        for slot in 1..=8 {
            assert_eq!(details.slot(slot), header.slot(slot));
            assert_eq!(header.area_length(slot), STRIPES as usize * profile.key_bytes());
            assert_eq!(header.random_length(slot), (STRIPES as usize - 1) * profile.key_bytes());
        }
        for slot in [0, 9, 255] {
            assert_eq!(details.slot(slot), None);
            assert_eq!((header.area_length(slot), header.random_length(slot), header.list_length(slot)), (0, 0, 0));
        }
    }
}

#[test]
fn no_slot_is_free_where_all_are_enabled() {
    let mut image = image(Profile::Key256);
    for slot in 2..=8 {
        let mut drive = Drive::over(&mut image);
        let (random, mut list) = buffers(&drive.header().expect("a header"), slot);
        assert_eq!(drive.slots().expect("the slots").free(), Some(slot));
        let (key, more) = (key(Profile::Key256), passphrase("more"));
        let _ = drive.add(slot, &key, &slot_input(&more, &random), &mut list).result.expect("a free slot");
    }
    let slots = Drive::over(&image[..]).slots().expect("the slots");
    assert!(slots.enabled().eq(1..=8));
    assert_eq!(slots.free(), None);
}

// A drive of another maker may have a count in a disabled slot, and anything for a UUID.
#[test]
fn a_header_is_shown_as_it_is() {
    let mut image = image(Profile::Key512);
    image[208 + 48..][..4].copy_from_slice(&0xDEADu32.to_be_bytes());
    image[208 + 48 + 4..][..4].copy_from_slice(&123_456u32.to_be_bytes());
    image[168..208].copy_from_slice(&[0xFF; 40]);
    let header = Drive::over(&image[..]).header().expect("a header");
    let second = header.slot(2).expect("slot 2");
    assert_eq!((second.enabled, second.count, second.start, second.stripes), (false, 123_456, 16, STRIPES));
    assert!(Drive::over(&image[..]).slots().expect("the slots").enabled().eq([1]));
    assert_eq!(header.uuid(), [0xFF; 40]);
    image[170] = 0;
    assert_eq!(Drive::over(&image[..]).header().expect("a header").uuid(), [0xFF; 2]);
    image[168] = 0;
    assert_eq!(Drive::over(&image[..]).header().expect("a header").uuid(), []);
}

#[test]
fn a_profile_has_its_number_its_hash_and_its_key_length() {
    let all: Vec<(u8, &str, usize)> =
        Profile::ALL.iter().map(|p| (p.number(), p.hash().name(), p.key_bytes())).collect();
    assert_eq!(all, [(1, "sha1", 32), (2, "sha1", 64), (3, "sha256", 32), (4, "sha256", 64)]);
    for &profile in Profile::ALL {
        assert_eq!(Profile::of(profile.hash(), profile.key_bytes()), Some(profile));
    }
    assert_eq!(Profile::of(Hash::Sha1, 48), None);
    assert_eq!(
        ["sha1", "sha256", "sha512", "SHA1", ""].map(Hash::named).map(|hash| hash.is_some()),
        [true, true, false, false, false]
    );
}

// A header names the profile only where cipher, mode, hash and key length are those of one.
#[test]
fn a_headers_names_give_its_profile() {
    let profile_with = |at: usize, bytes: &[u8]| {
        let mut image = image(Profile::Sha256Key512);
        image[at..at + bytes.len()].copy_from_slice(bytes);
        Names::of(&image).and_then(|names| names.profile())
    };
    assert_eq!(profile_with(72, b"sha256\0later"), Some(Profile::Sha256Key512));
    assert_eq!(profile_with(72, b"sha1\0"), Some(Profile::Key512));
    assert_eq!(profile_with(108, &32u32.to_be_bytes()), Some(Profile::Sha256Key256));
    assert_eq!(profile_with(108, &16u32.to_be_bytes()), None);
    assert_eq!(profile_with(72, b"sha512\0"), None);
    assert_eq!(profile_with(72, &[b's'; 32]), None);
    assert_eq!(profile_with(40, b"cbc-essiv:sha256\0"), None);
    assert_eq!(profile_with(8, b"serpent\0"), None);
}

// A header that names the other hash passes the header's check, and nothing opens by it.
#[test]
fn the_hash_is_the_headers() {
    for (profile, other) in [(Profile::Key512, "sha256"), (Profile::Sha256Key512, "sha1")] {
        let mut image = image(profile);
        image[72..104].fill(0);
        image[72..72 + other.len()].copy_from_slice(other.as_bytes());
        let drive = Drive::over(&image[..]);
        assert_eq!(drive.check(), Ok(()));
        assert_eq!(drive.open(&passphrase("one")).result.err(), Some(Refusal::WrongKey));
    }
}

// Every refusal that the binding's types leave room for, and that it changes nothing.
#[test]
fn refusals() {
    let (key, one) = (key(Profile::Key512), passphrase("one"));
    let short = Secret::zeroed(32);
    // Every call but format refuses a damaged header, and so do the screens and what stands on them.
    let damaged = |at: usize, bytes: &[u8]| {
        let mut image = image(Profile::Key512);
        image[at..at + bytes.len()].copy_from_slice(bytes);
        let drive = Drive::over(&image[..]);
        let refusal = drive.open(&one).result.err();
        assert_eq!(drive.check().err(), refusal);
        assert_eq!(drive.slots().err(), refusal);
        assert_eq!(drive.slot_details().err(), refusal);
        assert_eq!(drive.header().err(), refusal);
        refusal
    };
    assert_eq!(Drive::over([]).check(), Err(Refusal::ImageSize));
    assert_eq!(Drive::over([]).slots(), Err(Refusal::ImageSize));
    assert_eq!(Drive::over([]).slot_details(), Err(Refusal::ImageSize));
    assert_eq!(Drive::over([]).header(), Err(Refusal::ImageSize));
    assert_eq!(damaged(0, b"S"), Some(Refusal::Magic));
    assert_eq!(damaged(7, &[2]), Some(Refusal::Version));
    assert_eq!(damaged(72, b"md5\0"), Some(Refusal::NoProfile));
    assert_eq!(damaged(164, &[0; 4]), Some(Refusal::BadRecord));
    assert_eq!(damaged(104, &[1; 4]), Some(Refusal::BadArea));

    let mut image = image(Profile::Key512);
    let before = image.clone();
    let mut drive = Drive::over(&mut image);
    let input = format_input(Profile::Key512, &key);
    let other = |key, count, uuid| FormatInput::new(Profile::Key512, key, &SALT, count, uuid).stripes(STRIPES);
    assert_eq!(drive.format(&input.stripes(0)).result, Err(Refusal::BadStripes));
    assert_eq!(drive.format(&other(&short, COUNT, UUID)).result, Err(Refusal::KeyLength));
    assert_eq!(drive.format(&other(&key, 999, UUID)).result, Err(Refusal::LowCount));
    assert_eq!(drive.format(&other(&key, COUNT, "none")).result, Err(Refusal::BadUuid));
    let all_stripes = FormatInput::new(Profile::Key512, &key, &SALT, COUNT, UUID);
    assert_eq!((all_stripes.stripes, drive.format(&all_stripes).result), (4000, Err(Refusal::ShortImage)));
    assert_eq!(drive.open_slot(9, &one).result.err(), Some(Refusal::BadSlot));
    assert_eq!(drive.open(&Secret::zeroed(513)).result.err(), Some(Refusal::BadPassphrase));
    assert_eq!(drive.open_slot(2, &one).result.err(), Some(Refusal::WrongState));
    assert_eq!(drive.add(2, &key, &slot_input(&one, &[]), &mut []).result, Err(Refusal::BadLength));
    assert_eq!(drive.open(&passphrase("two")).result.err(), Some(Refusal::WrongKey));
    assert_eq!(drive.revoke(1, &[], &mut []).result, Err(Refusal::LastSlot));
    assert_eq!(drive.read(&key, PayloadUnit(u64::MAX), 1, &mut [0; 512]).result, Err(Refusal::BadRange));
    assert_eq!(drive.write(&key, PayloadUnit(0), 1, &[0; 511]).result, Err(Refusal::BadBuffer));
    assert_eq!(drive.write(&short, PayloadUnit(0), 0, &[]).result, Err(Refusal::KeyLength));
    assert!(image == before);
}

#[test]
fn each_refusal_has_its_number_and_a_sentence_of_its_own() {
    let mut sentences = std::collections::HashSet::new();
    for (number, refusal) in (1..=20).zip(Refusal::ALL) {
        assert_eq!(refusal.number(), number);
        assert_eq!(Refusal::from_number(number), Some(*refusal));
        let sentence = refusal.to_string();
        assert!(!sentence.contains("  ") && !sentence.ends_with('.'), "{sentence}");
        assert!(sentences.insert(sentence));
    }
    assert_eq!((sentences.len(), Refusal::ALL.len()), (20, 20));
    assert_eq!([0, 21, 255].map(Refusal::from_number), [None; 3]);
}

// An image that is only lent for reading is read by every call that changes nothing, and an owned one is changed.
#[test]
fn a_drive_stands_over_any_bytes() {
    let (mut image, key) = (image(Profile::Key256), key(Profile::Key256));
    let plain = [4; 512];
    Drive::over(&mut image).write(&key, PayloadUnit(0), 1, &plain).result.expect("a unit");
    let lent = Drive::over(&image[..]);
    assert_eq!(lent.check(), Ok(()));
    assert!(lent.slots().expect("the slots").enabled().eq([1]));
    assert_eq!(lent.open(&passphrase("one")).result.expect("slot 1 opens").slot, 1);
    let opened = lent.open_slot(1, &passphrase("one")).result.expect("slot 1 opens");
    let mut back = [0; 512];
    lent.read(&opened.key, PayloadUnit(0), 1, &mut back).result.expect("a unit");
    assert_eq!(back, plain);
    assert_eq!(lent.image(), image);

    let mut owned = Drive::over(image.clone());
    owned.write(&key, PayloadUnit(0), 1, &[5; 512]).result.expect("a unit");
    assert_ne!(owned.image(), image);
}

#[test]
fn nothing_that_is_printed_holds_a_key_an_image_or_stripes() {
    let mut image = image(Profile::Key256);
    let drive = Drive::over(&mut image);
    assert_eq!(format!("{drive:?}"), "Drive { length: 1050624 }");
    let opened = drive.open(&passphrase("one")).result.expect("slot 1 opens");
    assert_eq!(format!("{opened:?}"), "Opened { slot: 1, key: Secret(..) }");
    let (key, one) = (key(Profile::Key256), passphrase("one"));
    let input = format_input(Profile::Key256, &key);
    let said = format!("FormatInput {{ profile: Key256, stripes: 9, count: 1000, uuid: {UUID:?}, .. }}");
    assert_eq!(format!("{input:?}"), said);
    assert_eq!(format!("{:?}", slot_input(&one, &[5; 256])), "SlotInput { count: 1000, .. }");
}
