//! AES-XTS on the payload, ours by turns with OpenSSL's.

use crate::drive::Drive;
use crate::peers::{self, Without};
use crate::timing::{mean, Figures};
use crate::Outcome;
use mivrozh::Profile;

const UNITS: usize = 512;
/// OpenSSL's kinds and the number of rounds of each: the one that a budget speaks of has the most.
const PEERS: [(Without, usize); 3] = [(peers::NOTHING, 3), (peers::AES_NI, 12), (peers::AES_NI_AND_SSSE3, 3)];
const ROUNDS: usize = 12;

/// In each round ours runs for a second of the processor's time, and then OpenSSL's of each kind, as `openssl speed`
/// does it. So a round's figures are means of the same kind, and the best of ours is compared with the best of the other.
pub fn payload(profile: Profile) -> Outcome {
    let bits = 8 * profile.key_bytes();
    println!("Payload, {bits}-bit key, units of 512 bytes, megabytes a second of the processor:");
    println!("(the best of {ROUNDS} rounds, of 3 where OpenSSL has AES-NI or tables, and the median in brackets)");
    let mut drive = Drive::new(profile, 1, 1000, UNITS)?;
    for (name, decipher) in [("read ", true), ("write", false)] {
        let (mut ours, mut theirs) = (Figures::new(), PEERS.map(|_| Figures::new()));
        for round in 0..ROUNDS {
            ours.add(rate(&mut drive, decipher)?);
            for (figures, (without, _)) in theirs.iter_mut().zip(PEERS).filter(|(_, (_, rounds))| round < *rounds) {
                figures.add(peers::xts(without, bits, decipher)? / 1e6);
            }
        }
        for (figures, (without, _)) in theirs.iter().zip(PEERS) {
            print(name, &ours, figures, without);
        }
    }
    Ok(())
}

/// Megabytes a second over a second of calls, without what a call with one unit takes: checksum and key schedule, which
/// `openssl speed` leaves out too.
fn rate(drive: &mut Drive, decipher: bool) -> Result<f64, String> {
    let mut buffer = vec![0x33; UNITS * 512];
    let mut call = |units: usize| match decipher {
        true => drive.read(units, &mut buffer[..units * 512]),
        false => drive.write(units, &buffer[..units * 512]),
    };
    let one = mean(0.2, &mut || call(1))?;
    let whole = mean(1.0, &mut || call(UNITS))?;
    Ok(((UNITS - 1) * 512) as f64 / (whole - one) / 1e6)
}

fn print(name: &str, ours: &Figures, theirs: &Figures, without: Without) {
    let (best, other) = (ours.largest(), theirs.largest());
    let (median, others) = (ours.median(), theirs.median());
    let (ratio, of_medians) = (best / other, median / others);
    print!("  {name} ours {best:6.1} ({median:6.1})   OpenSSL {other:7.1} ({others:7.1})");
    println!("   ratio {ratio:6.3} ({of_medians:6.3})   OpenSSL {}", without.name);
}
