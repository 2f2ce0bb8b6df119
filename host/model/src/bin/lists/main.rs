//! Holds the library against the independent model: every set of checks that can fail together, every way of damage,
//! and seeded random lists of calls, in which lists of sector writes are cut, on long images some of them (`cuts` says how);
//! after each call, both screens of the image. Of every call the number of HMAC values is compared too. Ends with a failure
//! at the first difference, or if a refusal number was not reached.
//!
//!     lists [--calls N] [--seed S] [--profiles P]
//!
//! N is the number of calls in the random lists (20,000 if not given); the seed is printed and repeats a run. P is the
//! number of profiles that each set and each figure is tried on (all if not given); where it is not all of them, they
//! take turns.

mod both;
mod cuts;
mod damage;
mod drives;
mod random;
mod screens;
mod sets;
mod walks;

use both::Both;
use cuts::{Cuts, Ends};
use model::calls::KINDS;
use model::header::PROFILES;
use random::Random;
use std::process::ExitCode;
use std::time::{Instant, SystemTime, UNIX_EPOCH};

struct Options {
    calls: usize,
    seed: u64,
    profiles: usize,
}

fn options() -> Result<Options, String> {
    let now = SystemTime::now().duration_since(UNIX_EPOCH).map_or(0, |t| t.as_nanos() as u64);
    let mut options = Options { calls: 20_000, seed: now, profiles: PROFILES.len() };
    let mut words = std::env::args().skip(1);
    while let Some(word) = words.next() {
        let value = words.next().ok_or(format!("{word} needs a number"))?;
        let number: u64 = value.parse().map_err(|_| format!("{value} is not a number"))?;
        match word.as_str() {
            "--calls" => options.calls = number as usize,
            "--seed" => options.seed = number,
            "--profiles" => options.profiles = (number as usize).clamp(1, PROFILES.len()),
            _ => return Err(format!("unknown option {word}; known are --calls N, --seed S and --profiles P")),
        }
    }
    Ok(options)
}

fn run(options: &Options, both: &mut Both) -> Result<(), String> {
    let mut random = Random::new(options.seed);
    let sets = sets::run(both, &mut random, options.profiles)?;
    println!(
        "sets of failing checks, each reached and refused by its first number, on {} profiles each:",
        options.profiles
    );
    for (name, count) in KINDS.iter().zip(sets) {
        println!("  {name:10} {count:6}");
    }
    println!("ways of damage, before each call: {}", sets::ways(both, &mut random)?);
    println!("lengths of list buffers: {}", sets::lengths(both, &mut random)?);
    println!("calls on drives of the figures: {}", sets::figures(both, &mut random, options.profiles)?);
    let [same, first, neither] = sets::agreements(both, &mut random)?;
    println!(
        "pairs of drives with the same screens: {same}, with the same first one: {first}, with neither: {neither}"
    );
    if same == 0 || first == 0 || neither == 0 {
        return Err("a kind of pair was not met".into());
    }
    walks::cut_on_new_drive(both, &mut random)?;
    let (mut made, mut lists) = (0, [0; walks::BEGINNINGS.len()]);
    for (i, on) in walks::TURNS.into_iter().cycle().enumerate() {
        if made >= options.calls {
            break;
        }
        made += walks::walk(both, &mut random, on, options.calls - made)
            .map_err(|e| format!("random list {}, on {}: {e}", i + 1, walks::BEGINNINGS[on as usize]))?;
        lists[on as usize] += 1;
    }
    println!("random lists: {} with {made} calls", lists.iter().sum::<usize>());
    for (name, lists) in walks::BEGINNINGS.iter().zip(lists) {
        println!("  {name:24} {lists:6}");
    }
    show_cuts(&both.cuts);
    Ok(())
}

fn show_cuts(cuts: &Cuts) {
    println!("lists of sector writes that were cut, and images that cuts left:");
    let kinds = KINDS.iter().zip(cuts.calls.iter().zip(cuts.images)).filter(|(_, (calls, _))| **calls > 0);
    kinds.for_each(|(name, (calls, images))| println!("  {name:10} {calls:6} {images:6}"));
    println!("  other slots opened: {}", cuts.openings);
    for (images, ends) in [("all", cuts.ends), ("long", cuts.long_ends)] {
        let Ends { again, done_before, revoked } = ends;
        println!(
            "  ended on {images} images by the call again: {again}, by a revoke: {revoked}, done before: {done_before}"
        );
    }
}

/// The HMAC values that calls made, all compared; false where accepted calls of some kind but revoke made none, or refused ones
/// of a kind that tests a key or a passphrase, or where a revoke made one, or where a kind of search was not met.
fn show_values(both: &Both) -> bool {
    println!("HMAC values made by calls, accepted and refused with 17:");
    let mut complete = true;
    for (name, [accepted, refused]) in KINDS.iter().zip(both.values) {
        println!("  {name:10} {accepted:12} {refused:12}");
        complete &= (accepted > 0) == (*name != "revoke");
        complete &= (refused > 0) != ["format", "revoke"].contains(name);
    }
    let [early, vain] = both.searches;
    println!("  searches of several slots that hit before the last: {early}, that tried all in vain: {vain}");
    complete && early > 0 && vain > 0
}

/// The tables of calls by kind and number, of accepted calls by kind and profile, and of images shown; false if a
/// number of 0 to 20 was never given, a call never accepted on a profile, a number of 0 to 6 never by the screens, or some
/// kind of cut never met.
fn table(both: &Both) -> bool {
    println!("number   {}     all", KINDS.map(|kind| format!("{kind:>10}")).concat());
    let mut complete = true;
    for number in 0..=20 {
        let row = both.numbers.map(|kind| kind[number]);
        let all: u64 = row.iter().sum();
        println!("{number:6}   {}{all:8}", row.map(|n| format!("{n:10}")).concat());
        complete &= all > 0;
    }
    let all: u64 = both.calls.iter().sum();
    println!("   all   {}{all:8}", both.calls.map(|n| format!("{n:10}")).concat());
    println!("profile, accepted calls");
    for (profile, row) in PROFILES.iter().zip(both.accepted) {
        let all: u64 = row.iter().sum();
        println!("{:6}   {}{all:8}", profile.number, row.map(|n| format!("{n:10}")).concat());
        complete &= row.iter().all(|n| *n > 0);
    }
    println!("images on both screens, by number 0 to 6: {}", both.shown.map(|n| n.to_string()).join(", "));
    complete && both.shown.iter().all(|n| *n > 0) && both.cuts.complete()
}

fn main() -> ExitCode {
    let options = match options() {
        Ok(options) => options,
        Err(message) => {
            eprintln!("lists: {message}");
            return ExitCode::from(64);
        }
    };
    println!("seed {}", options.seed);
    let (began, mut both) = (Instant::now(), Both::new(options.seed));
    if let Err(message) = run(&options, &mut both) {
        let Options { calls, seed, profiles } = options;
        println!("FAILED with --calls {calls} --seed {seed} --profiles {profiles}: {message}");
        return ExitCode::FAILURE;
    }
    let (met, counted) = (table(&both), show_values(&both));
    if !met || !counted {
        println!(
            "FAILED: a refusal number was not reached, by calls or screens, a call was never accepted on a profile, or a kind \
             of cut, of search or of number of HMAC values was not met"
        );
        return ExitCode::FAILURE;
    }
    let calls: u64 = both.calls.iter().sum();
    let shown: u64 = both.shown.iter().sum();
    println!("{calls} calls and the screens of {shown} images agree, {:.1} s", began.elapsed().as_secs_f64());
    ExitCode::SUCCESS
}
