//! What an opening and an addition take beside the derivation of the slot's key: the area of 4,000 stripes, and the
//! checksum of the master key.

use crate::drive::Drive;
use crate::timing::{once_on_processor, Figures};
use crate::Outcome;
use mivrozh::Profile;

const RUNS: usize = 200;
const COUNT: u32 = 1000;

pub fn areas() -> Outcome {
    println!(
        "Beside the derivation of the slot's key, 4,000 stripes, checksum count 1,000, milliseconds of the processor:"
    );
    println!("(the least of {RUNS} runs, and the median in brackets)");
    for &profile in Profile::ALL {
        beside(profile, "open", |drive| drive.open())?;
        beside(profile, "add ", |drive| drive.add())?;
    }
    Ok(())
}

/// A derivation with this count is what twice the count takes more than the count once, at one stripe. The whole call
/// less that is area and checksum; the whole call less the same call at one stripe is the area alone.
fn beside(profile: Profile, name: &str, call: fn(&mut Drive) -> Outcome) -> Outcome {
    let drive = |stripes, count| Drive::new(profile, stripes, count, 0);
    let mut drives = [drive(4000, COUNT)?, drive(1, 2 * COUNT)?, drive(1, COUNT)?];
    let mut times = [Figures::new(), Figures::new(), Figures::new()];
    for _ in 0..RUNS {
        for (drive, times) in drives.iter_mut().zip(&mut times) {
            drive.take_back();
            times.add(once_on_processor(&mut || call(drive))? * 1e3);
        }
    }
    let [least, median] = [Figures::least, Figures::median].map(|figure| {
        let [whole, twice, single] = times.each_ref().map(figure);
        (whole - (twice - single), whole - single)
    });
    println!(
        "  {:6} key of {} bytes, {name}   area and checksum {:6.2} ({:6.2})   area {:6.2} ({:6.2})",
        profile.hash().name(),
        profile.key_bytes(),
        least.0,
        median.0,
        least.1,
        median.1
    );
    Ok(())
}
