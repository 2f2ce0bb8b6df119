//! A kill or a power cut at every write and flush, a full disk at every write, a disk that fails at every flush: the other
//! passphrases open the drive, of a change the old one or the new one, and what the tool says to do ends the work.
//!
//! `cut.c` is preloaded into the tool. It ends the process at the k-th write or flush, or has the k-th flush fail, and takes
//! back some of the writes that were not flushed before, as a power cut may. It can give the tool the same random bytes in each
//! run, so that the drive which an uncut run makes is known byte for byte.
mod common;
use common::*;
use mivrozh::header::Header;
use mivrozh::{Drive, Refusal, Secret, SlotInput, Slots};
use std::cell::Cell;
use std::path::PathBuf;
use std::process::Command;
use std::sync::OnceLock;

const KILLED: i32 = -9;
const LOST: [&str; 4] = ["none", "all", "even", "odd"];
// The file in a test's folder that has those bytes.
const RANDOM: &str = "random";

fn shim() -> &'static PathBuf {
    static SHIM: OnceLock<PathBuf> = OnceLock::new();
    SHIM.get_or_init(|| preloaded("cut.c"))
}

// Runs a line of words with the shim, set up by these variables.
fn shimmed(folder: &Folder, line: &str, variables: &[(&str, &str)]) -> Said {
    let mut command = tool();
    command.args(line.split_whitespace()).current_dir(folder.path("")).env("LD_PRELOAD", shim());
    said(command.envs(variables.iter().copied()))
}

// Runs it to its end, with the random bytes that are the same in every such run: as many of them are the same ones, whether they
// become a salt, stripes or filler.
fn with_same_random(folder: &Folder, line: &str) -> Said {
    shimmed(folder, line, &[("RANDOM", RANDOM)])
}

// The drive that the command makes where nothing cuts it. The one in the folder stays as it is.
fn uncut(folder: &Folder, line: &str) -> Vec<u8> {
    let before = folder.get("drive");
    with_same_random(folder, line).accepted();
    let after = folder.get("drive");
    folder.put("drive", before);
    after
}

// Cuts the command at every write and flush, with each way to lose what was not flushed. `judge` looks at the drive after
// each cut, and is told whether the command came to its end. Gives the number of cuts.
fn cut_everywhere(folder: &Folder, line: &str, judge: impl Fn(&Folder, bool, &str)) -> usize {
    let before = folder.get("drive");
    let mut cuts = 0;
    for lost in LOST {
        for at in 1.. {
            folder.put("drive", &before);
            let at_text = at.to_string();
            let said = shimmed(folder, line, &[("CUT_AT", &at_text), ("CUT_LOST", lost), ("RANDOM", RANDOM)]);
            assert!([0, KILLED].contains(&said.status), "{said:?}");
            judge(folder, said.status == 0, &format!("{line}, cut at {at}, lost {lost}"));
            if said.status == 0 {
                assert!(at > AREA_SECTORS + 1, "{at} writes and flushes are too few: the shim does nothing");
                break;
            }
            cuts += 1;
        }
    }
    folder.put("drive", before);
    cuts
}

// A drive with the passphrase of `one` in this slot and that of `three` in slot 4.
fn with_slot(slot: usize) -> Folder {
    let folder = Folder::with_drive();
    folder.put(RANDOM, pattern(64 * 1024));
    folder.line("add --iterations 1000 --slot 4 --key-file one --new-key-file three drive").accepted();
    if slot != 1 {
        let line = format!("change --iterations 1000 --slot 1 --to {slot} --key-file one --new-key-file one drive");
        folder.line(&line).accepted();
    }
    folder
}

// What the library says of the drive: whether its header passes, which slots are enabled, and which of them opens with the
// passphrase of a key file.
struct Found {
    image: Vec<u8>,
    slots: Slots,
}

impl Found {
    fn in_folder(folder: &Folder, what: &str) -> Found {
        let image = folder.get("drive");
        let slots = Drive::over(&image[..]).slots().unwrap_or_else(|refusal| panic!("{what}: {refusal}"));
        Found { image, slots }
    }

    fn opens(&self, slot: usize, key_file: &str) -> bool {
        let passphrase = Secret::from(format!("passphrase {key_file}").into_bytes());
        match Drive::over(&self.image[..]).open_slot(slot as u8, &passphrase).result {
            Ok(_) => true,
            Err(Refusal::WrongState | Refusal::WrongKey) => false,
            Err(refusal) => panic!("{refusal}"),
        }
    }

    fn is_enabled(&self, slot: usize) -> bool {
        self.slots.is_enabled(slot as u8)
    }
}

// A command that was cut makes the uncut drive when it is given again, or is refused with 15 since that is there, in these words.
fn ends_when_given_again(folder: &Folder, line: &str, uncut: &[u8], words: &str, what: &str) {
    let cut = folder.get("drive");
    let said = with_same_random(folder, line);
    match said.status {
        0 => _ = said.accepted(),
        _ => {
            said.refused(15, words);
            assert!(folder.get("drive") == cut, "{what}: a refused command changed the drive");
        }
    }
    assert!(folder.get("drive") == uncut, "{what}: given again, it does not make the uncut drive");
}

// Counts one of three outcomes.
fn count(outcomes: &Cell<[usize; 3]>, which: usize) {
    let mut counts = outcomes.get();
    counts[which] += 1;
    outcomes.set(counts);
}

#[test]
fn a_cut_change_is_ended() {
    for (from, to) in [(1, 2), (1, 7), (7, 1), (7, 8), (8, 7)] {
        let (folder, outcomes) = (with_slot(from), Cell::default());
        let line = format!("change --iterations 1000 --slot {from} --to {to} --key-file one --new-key-file two drive");
        let after = uncut(&folder, &line);
        let cuts = cut_everywhere(&folder, &line, |folder, ended, what| {
            let found = Found::in_folder(folder, what);
            assert!(found.opens(4, "three"), "slot 4, which was not touched, opens no more: {what}");
            let (old, new) = (found.opens(from, "one"), found.opens(to, "two"));
            assert!(old || new, "no passphrase opens: {what}");
            assert_eq!(found.is_enabled(to), new, "the new slot is enabled and opens, or neither: {what}");
            assert!(!ended || (found.image == after && new && !old), "{what}");
            match (found.is_enabled(from), found.is_enabled(to)) {
                (_, false) => {
                    count(&outcomes, 0);
                    ends_when_given_again(folder, &line, &after, "", what)
                }
                (true, true) => {
                    count(&outcomes, 1);
                    let words = format!(
                        "If a change to it was cut short and 'mivrozh test --slot {to}' opens with the new passphrase, \
                         'mivrozh revoke --slot {from}' ends that."
                    );
                    with_same_random(folder, &line).refused(15, &words);
                    with_same_random(folder, &format!("revoke --force --slot {from} drive")).accepted();
                    assert!(folder.get("drive") == after, "{what}: the revocation does not end the change");
                }
                (false, true) => {
                    count(&outcomes, 2 - usize::from(ended));
                    let words = format!("If a change of key slot {from} to it was cut short, that is done.");
                    with_same_random(folder, &line).refused(15, &words);
                    assert!(found.image == after, "{what}: the change is not done");
                }
            }
        });
        // Two flushes before, and each write and flush of both areas and headers, with each way to lose.
        assert_eq!(cuts, 4 * (2 + 2 * (AREA_SECTORS + 5)), "{from} to {to}");
        assert!(outcomes.get().iter().all(|&met| met > 0), "{from} to {to}: {outcomes:?}");
    }
}

// Without --to, the command that is given again takes another free slot where the first is in use by then.
#[test]
fn a_cut_change_without_slots() {
    let (folder, outcomes) = (with_slot(1), Cell::default());
    let line = "change --iterations 1000 --key-file one --new-key-file two drive";
    let words = "If a change was cut short and 'mivrozh test' opens with the new passphrase, revoke the old slot.";
    cut_everywhere(&folder, line, |folder, ended, what| {
        let found = Found::in_folder(folder, what);
        assert!(found.opens(4, "three") && (found.opens(1, "one") || found.opens(2, "two")), "{what}");
        if ended {
            return;
        }
        let said = folder.line(line);
        let outcome = match (said.status, found.is_enabled(2)) {
            (0, false) => 0,
            (0, true) => 1,
            _ => 2,
        };
        count(&outcomes, outcome);
        match outcome {
            0 => assert!(folder.opens("two") && !folder.opens("one"), "{what}"),
            1 => assert!(Found::in_folder(folder, what).opens(3, "two") && !folder.opens("one"), "{what}"),
            _ => _ = said.refused(17, words),
        }
        assert!(folder.opens("two") && folder.opens("three"), "{what}");
    });
    assert!(outcomes.get().iter().all(|&met| met > 0), "{outcomes:?}");
}

// A command that takes the last free slot is cut so late that, given again, it finds none.
#[test]
fn a_cut_that_leaves_no_free_slot() {
    for (name, words) in [
        (
            "change",
            "every key slot is in use; revoke one first. If a change was cut short: where 'mivrozh test' opens with the new \
             passphrase, revoke the old slot and no other.",
        ),
        (
            "add",
            "every key slot is in use; revoke one first. If an addition was cut short, 'mivrozh test' with the new passphrase \
             says whether it is done.",
        ),
    ] {
        let (folder, met) = (with_slot(1), Cell::new(0));
        for slot in [2, 3, 5, 6, 7] {
            let line = format!("add --iterations 1000 --slot {slot} --key-file one --new-key-file three drive");
            folder.line(&line).accepted();
        }
        let line = format!("{name} --iterations 1000 --key-file one --new-key-file two drive");
        let after = uncut(&folder, &line);
        cut_everywhere(&folder, &line, |folder, ended, what| {
            if ended || Found::in_folder(folder, what).slots.free().is_some() {
                return;
            }
            met.set(met.get() + 1);
            folder.line(&line).refused(15, words);
            assert_eq!(folder.line("test --key-file two drive").accepted().out, "key slot 8 opens\n", "{what}");
            if name == "change" {
                with_same_random(folder, "revoke --force --slot 1 drive").accepted();
            }
            assert!(folder.get("drive") == after, "{what}");
        });
        assert!(met.get() > 0, "{name}");
    }
}

#[test]
fn a_cut_addition_is_ended() {
    for slot in [2, 7, 8] {
        let folder = with_slot(1);
        let line = format!("add --iterations 1000 --slot {slot} --key-file one --new-key-file two drive");
        let words = format!("If an addition to it was cut short, it is done: 'mivrozh test --slot {slot}' tries it.");
        let after = uncut(&folder, &line);
        let cuts = cut_everywhere(&folder, &line, |folder, ended, what| {
            let found = Found::in_folder(folder, what);
            assert!(found.opens(1, "one") && found.opens(4, "three"), "{what}");
            assert_eq!(found.is_enabled(slot), found.opens(slot, "two"), "a half slot is enabled: {what}");
            assert!(!ended || found.image == after, "{what}");
            ends_when_given_again(folder, &line, &after, &words, what);
        });
        assert_eq!(cuts, 4 * (2 + AREA_SECTORS + 5), "slot {slot}");
    }
}

#[test]
fn a_cut_revocation_is_ended() {
    for slot in [2, 7, 8] {
        let folder = with_slot(1);
        folder.line(&format!("add --iterations 1000 --slot {slot} --key-file one --new-key-file two drive")).accepted();
        let line = format!("revoke --force --slot {slot} drive");
        let after = uncut(&folder, &line);
        let cuts = cut_everywhere(&folder, &line, |folder, ended, what| {
            let found = Found::in_folder(folder, what);
            assert!(found.opens(1, "one") && found.opens(4, "three"), "{what}");
            assert!(!ended || found.image == after, "{what}");
            let words = "is not in use; these are: 1, 4. If its revocation was cut short, it is done.";
            ends_when_given_again(folder, &line, &after, words, what);
        });
        assert_eq!(cuts, 4 * (2 + AREA_SECTORS + 5), "slot {slot}");
    }
}

#[test]
fn a_cut_format_leaves_no_half_header() {
    let folder = with_slot(1);
    let line = format!("format --force --iterations 1000 --stripes {STRIPES} --key-file two drive");
    cut_everywhere(&folder, &line, |folder, _, what| {
        let status = folder.line("test --key-file two drive").status;
        let untouched = status == 17 && folder.opens("one");
        assert!(untouched || [0, 2].contains(&status), "{status}: {what}");
    });
}

// The commands whose lists fail on the way below, each with its old slot and its new one, 0 where it has none.
const FAILING: [(&str, usize, usize); 7] = [
    ("add --iterations 1000 --slot 2 --key-file one --new-key-file two drive", 1, 2),
    ("add --iterations 1000 --slot 8 --key-file one --new-key-file two drive", 1, 8),
    ("change --iterations 1000 --slot 1 --to 2 --key-file one --new-key-file two drive", 1, 2),
    ("change --iterations 1000 --slot 1 --to 8 --key-file one --new-key-file two drive", 1, 8),
    ("change --iterations 1000 --slot 8 --to 2 --key-file one --new-key-file two drive", 8, 2),
    ("revoke --force --slot 1 drive", 1, 0),
    ("revoke --force --slot 8 drive", 8, 0),
];

// A command that failed after so many flushed stages says what to do: to revoke the old slot only where the three stages of a
// change's new slot are flushed. That is done, and makes the drive that an uncut run makes.
fn ends_as_told(folder: &Folder, (line, from, to): (&str, usize, usize), said: &Said, flushed: usize, after: &[u8]) {
    let (told, what) = (said.err.trim_end(), format!("{line}, {flushed} flushed: {}", said.err));
    assert!(Found::in_folder(folder, &what).opens(4, "three"), "{what}");
    let revoke = format!(
        "to end the work, see that 'mivrozh test --slot {to}' opens with the new passphrase, and then revoke key slot {from} \
         (cryptsetup's {}), if it is still in use.",
        from - 1
    );
    let mut revokes = line.starts_with("change") && flushed >= 3;
    assert_eq!(told.to_lowercase().ends_with(&revoke), revokes, "{what}");
    assert_eq!(told.contains("revoke key slot"), revokes, "{what}");
    if !revokes {
        let slots = match line.split_once(' ').expect("a command").0 {
            "add" => format!(", with --slot {to}"),
            "change" => format!(", with --slot {from} --to {to}"),
            _ => String::new(),
        };
        let again = format!("o end the work, give the same command again{slots}.");
        let at_opening = flushed == 0 && told.ends_with(" Then give the same command again.");
        assert!(at_opening || told.ends_with(&again), "{what}");
        let again = with_same_random(folder, line);
        assert!([0, 15].contains(&again.status), "{what}: {}", again.err);
        revokes = again.err.contains(&format!("'mivrozh revoke --slot {from}' ends that"));
    }
    if revokes {
        with_same_random(folder, &format!("test --slot {to} --key-file two drive")).accepted();
        let revoked = with_same_random(folder, &format!("revoke --force --slot {from} drive"));
        assert!([0, 15].contains(&revoked.status), "{what}: {}", revoked.err);
    }
    assert!(folder.get("drive") == after, "{what}");
}

// Runs each command with the n-th step failing, for each n, till it comes to its end; `judge` is told the failure and n, and
// gives the number of stages that were flushed before.
fn failing(variable: &str, lost: &str, least: usize, judge: impl Fn(&Said, usize) -> usize) {
    for command in FAILING {
        let folder = with_slot(command.1);
        let (before, after) = (folder.get("drive"), uncut(&folder, command.0));
        for at in 1.. {
            folder.put("drive", &before);
            let at_text = at.to_string();
            let said = shimmed(&folder, command.0, &[(variable, &at_text), ("CUT_LOST", lost), ("RANDOM", RANDOM)]);
            if said.status == 0 {
                assert!(at > least, "the shim does nothing");
                break;
            }
            let flushed = judge(&said, at);
            ends_as_told(
                &folder,
                command,
                &said.failed(74, "drive: not everything could be written: "),
                flushed,
                &after,
            );
        }
    }
}

#[test]
fn a_full_disk_loses_nothing() {
    failing("FULL_AT", "none", AREA_SECTORS + 2, |said, at| {
        assert!(said.err.contains("the disk is full; make room on it first. To end the work, "), "{}", said.err);
        let of_slot = AREA_SECTORS + 2;
        let (slots, write) = ((at - 1) / of_slot, (at - 1) % of_slot);
        3 * slots + (write + 1).saturating_sub(AREA_SECTORS)
    });
}

// What was written since the last flush may be on the disk or not, and the tool cannot see which. The first flush is done when
// the drive is opened, the second before the first write.
#[test]
fn a_flush_that_fails_is_told() {
    let untaken = "Input/output error (os error 5). The disk did not take what was written, and what it holds is known only \
                   after a restart: first restart the machine, or unplug the disk and plug it in again, and revoke nothing \
                   before that. Then";
    for lost in LOST {
        failing("FLUSH_FAILS_AT", lost, 5, |said, at| {
            assert!(said.err.contains(untaken), "{}", said.err);
            at.saturating_sub(3)
        });
    }
}

// A drive with 4,000 stripes, as other tools need it, whose change is cut at places all over: cryptsetup opens it as well.
#[test]
fn cryptsetup_opens_a_cut_drive() {
    let opens = |folder: &Folder, key_file: &str| {
        let mut cryptsetup = Command::new("cryptsetup");
        cryptsetup.args(["open", "--test-passphrase", "--key-file", key_file, "drive"]).current_dir(folder.path(""));
        cryptsetup.output().expect("cryptsetup runs").status.success()
    };
    let folder = Folder::with_drive();
    folder.put("drive", vec![0; 4096 * 512]);
    folder.line("format --iterations 1000 --key-file one drive").accepted();
    let before = folder.get("drive");
    let line = "change --iterations 1000 --to 7 --key-file one --new-key-file two drive";
    let all = writes_of(&folder, line).len();
    // Two flushes, the area's 500 sectors and its flush, then sectors 1 and 0 with a flush each: there the new slot is enabled.
    let at_the_turn = 501..=511;
    assert_eq!(all, 2 + 2 * (500 + 5));
    let cuts = (1..=all).step_by(167).chain(at_the_turn).chain(all - 5..=all);
    for at in cuts {
        for lost in LOST {
            folder.put("drive", &before);
            let said = shimmed(&folder, line, &[("CUT_AT", &at.to_string()), ("CUT_LOST", lost)]);
            assert_eq!(said.status, KILLED, "cut at {at} of {all}");
            assert!(opens(&folder, "one") || opens(&folder, "two"), "cut at {at}, lost {lost}");
        }
    }
}

// The writes of a command, with the flushes between them.
fn writes_of(folder: &Folder, line: &str) -> Vec<String> {
    log_of(folder, line).into_iter().filter(|line| !line.starts_with("forget")).collect()
}

fn log_of(folder: &Folder, line: &str) -> Vec<String> {
    let log = folder.path("log");
    let _ = std::fs::remove_file(&log);
    shimmed(folder, line, &[("CUT_LOG", log.to_str().expect("a path in UTF-8"))]).accepted();
    String::from_utf8(folder.get("log")).expect("text").lines().map(str::to_owned).collect()
}

fn expected(stages: &[Vec<usize>]) -> Vec<String> {
    let stage = |sectors: &Vec<usize>| {
        let writes = sectors.iter().map(|sector| format!("write {} 512", sector * 512));
        writes.chain(["flush".to_owned()]).collect::<Vec<_>>()
    };
    stages.iter().flat_map(stage).collect()
}

// Every sector of the engine's list, also one whose bytes stay. Before the drive is loaded and before the first write, what is
// in the file is flushed to the disk.
#[test]
fn the_stages_come_in_their_order() {
    let folder = with_slot(1);
    let of_slot = |slot| [area(slot).collect::<Vec<_>>(), vec![1], vec![0]];
    let expected = |stages: &[Vec<usize>]| expected(&[&[vec![], vec![]], stages].concat());
    let add = |slot: usize| format!("add --iterations 1000 --slot {slot} --key-file one --new-key-file two drive");
    for slot in [2, 7, 8] {
        assert_eq!(writes_of(&folder, &add(slot)), expected(&of_slot(slot)));
    }
    assert_eq!(writes_of(&folder, "revoke --force --slot 7 drive"), expected(&of_slot(7)));
    let change = "change --iterations 1000 --slot 8 --to 7 --key-file two --new-key-file three drive";
    assert_eq!(writes_of(&folder, change), expected(&[of_slot(7), of_slot(8)].concat()));
    assert_eq!(writes_of(&folder, "revoke --force --slot 2 drive"), expected(&of_slot(2)));
}

// What the system holds of the header and the areas is forgotten before they are loaded: after a flush that failed, it may be
// false. What is still to be written comes to the disk first.
#[test]
fn the_drive_is_loaded_from_the_disk() {
    let folder = with_slot(1);
    let forget = |from: usize, to: usize| format!("forget {} {}", from * 512, (to - from) * 512);
    let areas = (1..=8).map(|slot| forget(8 * slot, 8 * slot + 8));
    let expected: Vec<String> = ["flush".into(), forget(0, 8)].into_iter().chain(areas).collect();
    let log = log_of(&folder, "revoke --force --slot 4 drive");
    assert_eq!(log[..expected.len()], expected);
    assert_eq!(log_of(&folder, "test --key-file one drive"), [forget(0, 8), forget(8, 16)]);
}

// The drive is what the library makes with the same random bytes, so the tool writes what the engine's list has.
#[test]
fn the_drive_is_the_librarys() {
    let (random, secret) = (pattern(64 * 1024), |name: &str| Secret::from(format!("passphrase {name}").into_bytes()));
    let (salt, [one, two]) = (random[..32].try_into().expect("a salt"), ["one", "two"].map(secret));
    for (from, to) in [(1, 2), (1, 8), (7, 1), (8, 7)] {
        let folder = with_slot(from.into());
        let before = folder.get("drive");
        let header = Header::of(&before).expect("a drive");
        let (stripes, filler) = (&random[..header.random_length(to)], &random[..header.area_length(from)]);
        let input = SlotInput::new(&two, &salt, 1000, stripes);
        let mut list = vec![0; header.list_length(to)];
        let key = Drive::over(&before[..]).open(&one).result.expect("the key").key;

        let [mut added, mut changed, mut revoked] = [(); 3].map(|()| before.clone());
        assert!(Drive::over(&mut added[..]).add(to, &key, &input, &mut list).result.is_ok());
        assert!(Drive::over(&mut revoked[..]).revoke(from, filler, &mut list).result.is_ok());
        let mut list = vec![0; header.change_list_length(from, to)];
        assert!(Drive::over(&mut changed[..]).change(from, &one, to, &input, filler, &mut list).result.is_ok());

        let options = "--iterations 1000 --key-file one --new-key-file two drive";
        assert!(uncut(&folder, &format!("add --slot {to} {options}")) == added, "add to {to}");
        assert!(uncut(&folder, &format!("change --slot {from} --to {to} {options}")) == changed, "{from} to {to}");
        assert!(uncut(&folder, &format!("revoke --force --slot {from} drive")) == revoked, "revoke {from}");
    }
}

// Header and areas go sector by sector, payload units together, and all of them are on the disk before the tool says so.
#[test]
fn neighbouring_payload_units_are_written_together() {
    let folder = with_slot(1);
    folder.put("units", pattern(8 * 512));
    let writes = writes_of(&folder, "write --key-file one --first 4 --in units drive");
    let expected = ["flush".into(), format!("write {} {}", (PAYLOAD_START + 4) * 512, 8 * 512), "flush".into()];
    assert_eq!(writes, expected);
}

// Of units whose flush fails it is not said that they are written.
#[test]
fn a_write_whose_flush_fails_is_told() {
    let folder = with_slot(1);
    folder.put("units", pattern(8 * 512));
    for at in ["1", "2"] {
        let said = shimmed(&folder, "write --key-file one --in units drive", &[("FLUSH_FAILS_AT", at)]);
        let said = said.failed(74, "and revoke nothing before that. Then give the same command again.");
        assert!(!said.err.contains("written before"), "{}", said.err);
    }
}

#[test]
fn a_cut_write_leaves_each_unit_old_or_new() {
    let folder = with_slot(1);
    let before = folder.get("drive");
    folder.put("units", pattern(8 * 512));
    let line = "write --key-file one --first 4 --in units drive";
    folder.line(line).accepted();
    let after = folder.get("drive");
    for at in ["1", "2", "3"] {
        for lost in LOST {
            folder.put("drive", &before);
            let said = shimmed(&folder, line, &[("CUT_AT", at), ("CUT_LOST", lost)]);
            assert_eq!(said.status, KILLED);
            let cut = folder.get("drive");
            let sectors = cut.chunks(512).zip(before.chunks(512)).zip(after.chunks(512));
            assert!(sectors.into_iter().all(|((cut, old), new)| cut == old || cut == new), "cut at {at}, lost {lost}");
            assert!(changed_sectors(&before, &cut).iter().all(|sector| (4..12).contains(&(sector - PAYLOAD_START))));
        }
    }
}
