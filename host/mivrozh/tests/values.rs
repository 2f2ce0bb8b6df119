//! How many HMAC values each call makes, accepted and refused: by the wish's sums, and by what the header says before the call.
use mivrozh::{Counted, Drive, FormatInput, Header, PayloadUnit, Profile, Refusal, Secret, SlotInput};

const UUID: &str = "6a2b1f0e-3c4d-4e5f-8a9b-0c1d2e3f4a5b";
const SALT: [u8; 32] = [3; 32];
// Counts of the checksum and of slots, all different: a sum has each of them.
const CHECKSUM: u32 = 1003;
const SECOND: u32 = 1010;
const FIFTH: u32 = 1100;
const NEW: u32 = 1007;

fn secret(text: &str) -> Secret {
    Secret::from(text.as_bytes())
}

fn key(profile: Profile) -> Secret {
    Secret::from(vec![5; profile.key_bytes()])
}

// Blocks of a slot's key, one by one.
fn blocks(profile: Profile) -> u64 {
    match profile {
        Profile::Key256 => 2,
        Profile::Key512 => 4,
        Profile::Sha256Key256 => 1,
        Profile::Sha256Key512 => 2,
        other => panic!("{other:?} has no figure here"),
    }
}

// A drive of one stripe and one unit with the passphrases "two" in slot 2 and "five" in slot 5.
fn image(profile: Profile) -> Vec<u8> {
    let (mut image, key) = (vec![0; (1 << 20) + 512], key(profile));
    let mut drive = Drive::over(&mut image);
    let formatted = drive.format(&FormatInput::new(profile, &key, &SALT, CHECKSUM, UUID).stripes(1));
    assert_eq!(formatted, Counted { values: CHECKSUM.into(), result: Ok(()) });
    assert_eq!(drive.header().expect("a header").search_values(), 0, "no slot is enabled");
    assert_eq!(drive.open(&secret("two")).map(|opened| opened.slot).values, 0);
    for (slot, text, count) in [(2, "two", SECOND), (5, "five", FIFTH)] {
        let header = drive.header().expect("a header");
        let (passphrase, mut list) = (secret(text), vec![0; header.list_length(slot)]);
        let added = drive.add(slot, &key, &SlotInput::new(&passphrase, &SALT, count, &[]), &mut list);
        assert!(added.result.is_ok());
        assert_eq!(added.values, header.checksum_values() + header.derivation_values(count));
        assert_eq!(added.values, u64::from(CHECKSUM) + blocks(profile) * u64::from(count));
    }
    image
}

fn header(image: &[u8]) -> Header {
    Header::of(image).expect("a header")
}

// What an opening gives, without the key.
fn opening(counted: Counted<mivrozh::Opened>) -> (u64, Result<u8, Refusal>) {
    (counted.values, counted.result.map(|opened| opened.slot))
}

#[test]
fn openings_make_what_the_header_says() {
    for &profile in Profile::ALL {
        let image = image(profile);
        let (drive, header) = (Drive::over(&image[..]), header(&image));
        let trial = |count: u32| blocks(profile) * u64::from(count) + u64::from(CHECKSUM);
        assert_eq!((header.trial_values(2), header.trial_values(5)), (trial(SECOND), trial(FIFTH)));
        assert_eq!(header.search_values(), trial(SECOND) + trial(FIFTH));
        for slot in [0, 1, 3, 4, 6, 7, 8, 9, 255] {
            assert_eq!(header.trial_values(slot), 0, "slot {slot}");
        }
        let refused = Err(Refusal::WrongKey);
        assert_eq!(opening(drive.open_slot(5, &secret("five"))), (header.trial_values(5), Ok(5)));
        assert_eq!(opening(drive.open_slot(5, &secret("two"))), (header.trial_values(5), refused));
        assert_eq!(opening(drive.open(&secret("two"))), (header.trial_values(2), Ok(2)));
        assert_eq!(opening(drive.open(&secret("five"))), (header.search_values(), Ok(5)));
        assert_eq!(opening(drive.open(&secret("six"))), (header.search_values(), refused));
        assert_eq!(opening(drive.open_slot(1, &secret("five"))), (0, Err(Refusal::WrongState)));
        assert_eq!(opening(drive.open_slot(9, &secret("five"))), (0, Err(Refusal::BadSlot)));
        assert_eq!(opening(drive.open(&Secret::zeroed(0))), (0, Err(Refusal::BadPassphrase)));
        assert_eq!(opening(Drive::over(&image[1..]).open(&secret("two"))), (0, Err(Refusal::ImageSize)));
    }
}

#[test]
fn calls_that_change_make_what_the_header_says() {
    for &profile in Profile::ALL {
        let (mut image, key, other) = (image(profile), key(profile), Secret::zeroed(profile.key_bytes()));
        let header = header(&image);
        let mut drive = Drive::over(&mut image);
        let (new, five, two) = (secret("new"), secret("five"), secret("two"));
        let input = SlotInput::new(&new, &SALT, NEW, &[]);
        let (mut list, filler) = (vec![0; header.list_length(1)], vec![0; header.area_length(5)]);
        let mut lists = vec![0; header.change_list_length(5, 1)];
        let made = |values, refusal| (values, Some(refusal));

        let added = drive.add(1, &other, &input, &mut list);
        assert_eq!((added.values, added.result.err()), made(header.checksum_values(), Refusal::WrongKey));
        let added = drive.add(1, &other, &input, &mut list[1..]);
        assert_eq!((added.values, added.result.err()), made(0, Refusal::BadBuffer));
        let changed = drive.change(5, &two, 1, &input, &filler, &mut lists);
        assert_eq!((changed.values, changed.result.err()), made(header.trial_values(5), Refusal::WrongKey));
        let changed = drive.change(5, &two, 2, &input, &filler, &mut lists);
        assert_eq!((changed.values, changed.result.err()), made(0, Refusal::WrongState));
        let revoked = drive.revoke(1, &filler, &mut list);
        assert_eq!((revoked.values, revoked.result.err()), made(0, Refusal::WrongState));

        let changed = drive.change(5, &five, 1, &input, &filler, &mut lists);
        assert!(changed.result.is_ok());
        assert_eq!(changed.values, header.trial_values(5) + header.derivation_values(NEW));
        let revoked = drive.revoke(2, &filler, &mut list);
        assert!(revoked.result.is_ok());
        assert_eq!(revoked.values, 0);
        assert_eq!(opening(drive.open(&new)).0, header.derivation_values(NEW) + header.checksum_values());
        drive.format(&FormatInput::new(profile, &key, &SALT, CHECKSUM, UUID).stripes(1)).result.expect("a drive");
        let refused = drive.format(&FormatInput::new(profile, &key, &SALT, 999, UUID).stripes(1));
        assert_eq!(refused, Counted { values: 0, result: Err(Refusal::LowCount) });
    }
}

#[test]
fn a_transfer_tests_its_key_once() {
    for &profile in Profile::ALL {
        let (mut image, key, other) = (image(profile), key(profile), Secret::zeroed(profile.key_bytes()));
        let checksum = header(&image).checksum_values();
        assert_eq!(checksum, u64::from(CHECKSUM));
        let (mut drive, mut buffer) = (Drive::over(&mut image), [7; 512]);
        let made = |values, result| Counted { values, result };
        let (first, end) = (PayloadUnit(0), PayloadUnit(1));
        assert_eq!(drive.write(&key, first, 1, &buffer), made(checksum, Ok(())));
        assert_eq!(drive.write(&key, end, 0, &[]), made(checksum, Ok(())));
        assert_eq!(drive.write(&other, first, 1, &buffer), made(checksum, Err(Refusal::WrongKey)));
        assert_eq!(drive.write(&other, end, 1, &buffer), made(0, Err(Refusal::BadRange)));
        assert_eq!(drive.read(&key, first, 1, &mut buffer), made(checksum, Ok(())));
        assert_eq!(drive.read(&key, end, 0, &mut []), made(checksum, Ok(())));
        assert_eq!(drive.read(&other, first, 1, &mut buffer), made(checksum, Err(Refusal::WrongKey)));
        assert_eq!(drive.read(&other, first, 1, &mut []), made(0, Err(Refusal::BadBuffer)));
    }
}

// The figures of the wish, and the largest sum of a header, which another tool may write.
#[test]
fn figures() {
    let derivation = |profile: Profile, count| profile.derivation_values(count);
    assert_eq!(derivation(Profile::Key256, 1000), 2000);
    assert_eq!(derivation(Profile::Key512, 1000), 4000);
    assert_eq!(derivation(Profile::Sha256Key256, 1000), 1000);
    assert_eq!(derivation(Profile::Sha256Key512, 1000), 2000);
    assert_eq!(derivation(Profile::Key256, 1001), 2002);
    let mut image = image(Profile::Key512);
    for slot in 0..8 {
        image[208 + 48 * slot..][..8].copy_from_slice(&[0, 0xAC, 0x71, 0xF3, 0xFF, 0xFF, 0xFF, 0xFF]);
    }
    image[164..168].fill(0xFF);
    assert_eq!(header(&image).search_values(), 171_798_691_800);
}
