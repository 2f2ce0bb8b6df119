//! How fast this machine derives: how many HMAC values it makes in a second, how long a call will take, how often a derivation is
//! iterated in a given time; and what is usual for the checksum.
use crate::failure::Failure;
use crate::small::{self, LEAST_COUNT};
use mivrozh::{Drive, Header, Profile, Refusal, Secret, SlotInput};
use std::sync::OnceLock;
use std::time::{Duration, Instant};

/// The count of a key's checksum where a slot has this one: an eighth, but not less than is accepted. It protects no
/// passphrase, since a key cannot be guessed, and costs at each opening; cryptsetup, too, gives it a small share of a slot's.
pub fn checksum_count(slot_count: u32) -> u32 {
    match slot_count {
        too_small if too_small < LEAST_COUNT => too_small,
        count => (count / 8).max(LEAST_COUNT),
    }
}

/// The count with which this machine derives a key of the profile in the given time.
pub fn count_for(profile: Profile, time: Duration) -> Result<u32, Failure> {
    let rates = Rates::exact(profile).map_err(Failure::refused)?;
    let least = Work { derivations: profile.derivation_values(LEAST_COUNT), checksums: 0 };
    Ok(scaled(LEAST_COUNT, time, rates.time(least)))
}

/// The HMAC values that a call will make: those that derive keys of slots, and those of checksums.
#[derive(Clone, Copy, Debug, Default, PartialEq, Eq)]
pub struct Work {
    pub derivations: u64,
    pub checksums: u64,
}

impl Work {
    /// A test of a key.
    pub fn checksum(header: &Header) -> Work {
        Work { derivations: 0, checksums: header.checksum_values() }
    }

    /// A trial of a slot; nothing where it is not enabled.
    pub fn trial(header: &Header, slot: u8) -> Work {
        let values = header.trial_values(slot);
        let checksums = header.checksum_values().min(values);
        Work { derivations: values - checksums, checksums }
    }

    /// A search that opens nothing.
    pub fn search(header: &Header) -> Work {
        header.slots().iter().fold(Work::default(), |work, (slot, _)| work.and(Work::trial(header, slot)))
    }

    /// The derivation of a new slot's key.
    pub fn derivation(header: &Header, count: u32) -> Work {
        Work { derivations: header.derivation_values(count), checksums: 0 }
    }

    pub fn and(self, other: Work) -> Work {
        let (derivations, checksums) = (self.derivations + other.derivations, self.checksums + other.checksums);
        Work { derivations, checksums }
    }

    pub fn values(self) -> u64 {
        self.derivations + self.checksums
    }
}

/// How many HMAC values of a profile this machine makes in a second. The blocks of a key of 64 bytes with sha1 are made side by
/// side, and a checksum has one block: so there are two rates.
#[derive(Clone, Copy, Debug)]
pub struct Rates {
    pub derivation: f64,
    pub checksum: f64,
}

// How long a measurement is, and how many there are: the fastest counts, since other work on the machine makes them slower.
#[derive(Clone, Copy)]
struct Effort {
    time: Duration,
    times: u8,
}

// Some hundredths of a second in all, and about a quarter; on a slow machine the time of the least counts.
const ROUGH: Effort = Effort { time: Duration::from_millis(8), times: 2 };
const EXACT: Effort = Effort { time: Duration::from_millis(40), times: 3 };
/// How many HMAC values a rough measurement makes at least where that is most, with keys of 64 bytes and sha1.
pub const MEASURED: u64 = 20_000;
// Nothing is measured with a larger count.
const MOST_COUNT: u32 = 1000 * LEAST_COUNT;

// Of each profile, as they were measured first.
static KNOWN: [OnceLock<Rates>; Profile::ALL.len()] = [const { OnceLock::new() }; Profile::ALL.len()];

impl Rates {
    /// Good enough to show how far a call is; measured once in a run.
    pub fn rough(profile: Profile) -> Result<Rates, Refusal> {
        Rates::known(profile, ROUGH)
    }

    /// Good enough to be said; measured once in a run.
    pub fn exact(profile: Profile) -> Result<Rates, Refusal> {
        Rates::known(profile, EXACT)
    }

    /// How long the work takes here.
    pub fn time(&self, work: Work) -> Duration {
        let seconds = work.derivations as f64 / self.derivation + work.checksums as f64 / self.checksum;
        Duration::try_from_secs_f64(seconds).unwrap_or(Duration::MAX)
    }

    // A command needs one of the two efforts, or the exact one first.
    fn known(profile: Profile, effort: Effort) -> Result<Rates, Refusal> {
        let known = &KNOWN[usize::from(profile.number()) - 1];
        match known.get() {
            Some(rates) => Ok(*rates),
            None => {
                let rates = Rates::measured(profile, effort)?;
                Ok(*known.get_or_init(|| rates))
            }
        }
    }

    // On a small drive in memory: a format makes the values of a checksum, and an addition those of a derivation and of the
    // least checksum.
    fn measured(profile: Profile, effort: Effort) -> Result<Rates, Refusal> {
        let (key, passphrase) = (Secret::zeroed(profile.key_bytes()), Secret::zeroed(1));
        let mut image = small::drive(profile, &key, 1)?;
        let mut drive = Drive::over(&mut image[..]);
        let checksum = effort.rate(Duration::ZERO, |count, _| {
            let start = Instant::now();
            let made = drive.format(&small::input(profile, &key, count));
            made.result.map(|()| (made.values, start.elapsed()))
        })?;
        drive.format(&small::input(profile, &key, LEAST_COUNT)).result?;
        let mut list = vec![0; drive.header()?.list_length(1)];
        let besides = Duration::from_secs_f64(f64::from(LEAST_COUNT) / checksum);
        let derivation = effort.rate(besides, |count, slot| {
            let start = Instant::now();
            let made = drive.add(slot, &key, &SlotInput::new(&passphrase, &[0; 32], count, &[]), &mut list);
            made.result.map(|_| (made.values - u64::from(LEAST_COUNT), start.elapsed()))
        })?;
        Ok(Rates { derivation, checksum })
    }
}

impl Effort {
    // The values a second of a call, which is given a count and the number of the measurement, from 1 on, and gives the number
    // of its values and its time; of that, about `besides` has nothing to do with these values, but never more than half.
    fn rate(
        self,
        besides: Duration,
        mut call: impl FnMut(u32, u8) -> Result<(u64, Duration), Refusal>,
    ) -> Result<f64, Refusal> {
        let (_, short) = call(LEAST_COUNT, 1)?;
        // A first measurement that is wrong must not make the others long.
        let count = scaled(LEAST_COUNT, self.time, short).min(MOST_COUNT);
        let mut fastest = 0.0;
        for number in 2..2 + self.times {
            let (values, took) = call(count, number)?;
            fastest = per_second(values, took - besides.min(took / 2)).max(fastest);
        }
        Ok(fastest)
    }
}

/// How many values a second these are.
pub fn per_second(values: u64, took: Duration) -> f64 {
    values as f64 / took.as_secs_f64().max(1e-9)
}

// A count that takes `time` where `count` takes `took`.
fn scaled(count: u32, time: Duration, took: Duration) -> u32 {
    let exact = f64::from(count) * time.as_secs_f64() / took.as_secs_f64().max(1e-9);
    // The conversion keeps to the bounds of the type.
    (exact as u32).max(LEAST_COUNT)
}

#[cfg(test)]
mod tests {
    use super::*;

    #[test]
    fn the_checksum_has_an_eighth_and_not_too_little() {
        assert_eq!(checksum_count(500_000), 62_500);
        assert_eq!(checksum_count(8007), 1000);
        assert_eq!(checksum_count(1000), 1000);
        assert_eq!(checksum_count(999), 999, "the engine is to refuse it");
        assert_eq!(checksum_count(u32::MAX), u32::MAX / 8);
    }

    #[test]
    fn counts_grow_with_the_time_within_their_bounds() {
        assert_eq!(scaled(10_000, Duration::from_secs(2), Duration::from_millis(500)), 40_000);
        assert_eq!(scaled(10_000, Duration::ZERO, Duration::from_millis(500)), 1000);
        assert_eq!(scaled(10_000, Duration::from_secs(1 << 40), Duration::from_millis(500)), u32::MAX);
        assert_eq!(scaled(10_000, Duration::from_secs(1), Duration::ZERO), u32::MAX);
    }

    // The first call is as short as may be, the others as long as the effort says, and the fastest counts.
    #[test]
    fn the_fastest_of_some_measurements_counts() {
        let (mut calls, effort) = (Vec::new(), Effort { time: Duration::from_millis(40), times: 3 });
        let times = [1, 101, 51, 81].map(Duration::from_millis);
        let rate = effort.rate(Duration::from_millis(1), |count, number| {
            calls.push((count, number));
            Ok((u64::from(count) * 4, times[usize::from(number) - 1]))
        });
        assert_eq!(calls, [(1000, 1), (40_000, 2), (40_000, 3), (40_000, 4)]);
        assert_eq!(rate, Ok(160_000.0 / 0.05));
        // What goes beside is at most half, and no count is too large.
        let rate = effort.rate(Duration::from_secs(1), |count, number| {
            assert!(count <= MOST_COUNT);
            Ok((4000, Duration::from_nanos(u64::from(number) * 1_000_000_000 / 2)))
        });
        assert_eq!(rate, Ok(8000.0));
        let rate = effort.rate(Duration::ZERO, |count, _| Ok((count.into(), Duration::ZERO)));
        assert_eq!(rate, Ok(f64::from(MOST_COUNT) / 1e-9));
    }

    #[test]
    fn a_time_is_that_of_both_kinds_of_values() {
        let rates = Rates { derivation: 4000.0, checksum: 1000.0 };
        assert_eq!(rates.time(Work { derivations: 8000, checksums: 500 }), Duration::from_millis(2500));
        assert_eq!(rates.time(Work::default()), Duration::ZERO);
        let never = Rates { derivation: 0.0, checksum: 0.0 };
        assert_eq!(never.time(Work { derivations: 1, checksums: 1 }), Duration::MAX);
    }

    // Every profile can be measured, in no more than a fraction of a second, and a known rate is not measured again.
    #[test]
    fn this_machine_is_measured_once() {
        for &profile in Profile::ALL {
            let rates = Rates::rough(profile).expect("a measurement");
            assert!(rates.derivation > 1000.0 && rates.checksum > 1000.0, "{profile:?}: {rates:?}");
            let again = Rates::exact(profile).expect("the same");
            assert_eq!((rates.derivation, rates.checksum), (again.derivation, again.checksum));
        }
    }

    #[test]
    fn the_work_of_a_search_is_that_of_its_trials() {
        let key = Secret::zeroed(64);
        let mut image = small::drive(Profile::Key512, &key, 1).expect("a drive");
        let mut drive = Drive::over(&mut image[..]);
        let mut list = vec![0; drive.header().expect("a header").list_length(1)];
        for (slot, count) in [(2, 1500), (8, 1000)] {
            let input = SlotInput::new(&key, &[0; 32], count, &[]);
            let _ = drive.add(slot, &key, &input, &mut list).result.expect("a free slot");
        }
        let header = drive.header().expect("a header");
        assert_eq!(Work::trial(&header, 1), Work::default());
        assert_eq!(Work::trial(&header, 2), Work { derivations: 6000, checksums: 1000 });
        assert_eq!(Work::search(&header), Work { derivations: 10_000, checksums: 2000 });
        assert_eq!(Work::search(&header).values(), header.search_values());
        assert_eq!(Work::checksum(&header).and(Work::derivation(&header, 1001)).values(), 1000 + 4004);
    }
}
