//! The command-line tool `mivrozh`: makes, opens and changes LUKS version 1 drives in image files.
#![deny(unsafe_code)]

mod amounts;
mod arguments;
mod bar;
mod commands;
mod completions;
mod failure;
mod help;
mod image;
mod manual;
mod passphrase;
mod pipeline;
mod random;
mod rate;
mod screens;
mod sections;
mod signatures;
mod small;
#[allow(unsafe_code)]
mod system;
#[allow(unsafe_code)]
mod terminal;
mod transfer;

use failure::Failure;
use std::io::Write;
use std::process::ExitCode;

fn main() -> ExitCode {
    match run() {
        Ok(()) => ExitCode::SUCCESS,
        Err(failure) => {
            // Where standard error is closed or full, the status still tells.
            let _ = writeln!(std::io::stderr(), "mivrozh: {}", failure.message);
            ExitCode::from(failure.status)
        }
    }
}

fn run() -> Result<(), Failure> {
    system::forbid_dumps();
    mivrozh::lock_stack();
    match arguments::parse(std::env::args_os().skip(1))? {
        arguments::Request::Show(text) => transfer::print(&text),
        arguments::Request::Run(given) => (given.command.run)(&given),
    }
}
