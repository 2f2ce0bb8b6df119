//! Live tests: drives exchanged with cryptsetup (Debian's cryptsetup-bin) and qemu (qemu-utils). Each check is named;
//! the first that fails ends the run with a failure.
//!
//!     live
//!
//! Every drive lives in a folder of its own under the system's temporary folder, which is removed in the end.

mod defaults;
mod exchange;
mod hands;
mod json;
mod payloads;
mod peers;
mod rebuild;
mod screens;
mod stored;
mod work;

use exchange::{make, Exchange, Maker};
use hands::{Hand, Library, Tool};
use peers::{Cryptsetup, Qemu};
use std::process::ExitCode;
use std::time::Instant;
use work::{Checks, Folder, Kind, Outcome};

fn exchanges(folder: &Folder, checks: &mut Checks) -> Outcome<()> {
    let tool = Tool::new(folder)?;
    let hands: [&dyn Hand; 2] = [&Library, &tool];
    for kind in Kind::all() {
        for maker in [Maker::Cryptsetup, Maker::Qemu, Maker::Ourselves, Maker::OurselvesBefore] {
            for hand in hands {
                checks.drive = format!("{kind}, {}, by the {}", maker.name(), hand.name());
                let image = make(folder, hand, maker, kind)?;
                let (cryptsetup, qemu) = (Cryptsetup { folder }, Qemu { folder });
                Exchange { checks, hand, maker, kind, cryptsetup, qemu, image, plain: Vec::new() }.run()?;
            }
        }
    }
    Ok(())
}

fn rebuilds(folder: &Folder, checks: &mut Checks) -> Outcome<()> {
    for kind in Kind::all() {
        for maker in [Maker::Cryptsetup, Maker::CryptsetupByDefault, Maker::Qemu] {
            checks.drive = format!("{kind}, {}, rebuilt", maker.name());
            rebuild::rebuild(folder, checks, maker, kind)?;
        }
    }
    Ok(())
}

fn run(checks: &mut Checks) -> Outcome<()> {
    println!("{}", work::run("cryptsetup", &["--version"])?.trim());
    println!("{}", work::run("qemu-img", &["--version"])?.lines().next().unwrap_or_default());
    let folder = Folder::new()?;
    exchanges(&folder, checks)?;
    payloads::payloads(&folder, checks)?;
    rebuilds(&folder, checks)?;
    stored::stored(&folder, checks)?;
    defaults::defaults(&folder, checks)
}

fn main() -> ExitCode {
    let (began, mut checks) = (Instant::now(), Checks { drive: String::new(), passed: 0 });
    if let Err(message) = run(&mut checks) {
        println!("FAILED  {message} ({})", checks.drive);
        return ExitCode::FAILURE;
    }
    println!("{} live checks passed, {:.1} s", checks.passed, began.elapsed().as_secs_f64());
    ExitCode::SUCCESS
}
