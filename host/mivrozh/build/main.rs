// Links the engine's static library, and has `rt` build it first where it is missing or older than its sources.
mod stale;

use std::path::{Path, PathBuf};
use std::process::Command;

fn main() {
    let root = repository_root();
    let folder = root.join("crates/capi");
    let archive = folder.join("out/libcapi.a");
    let sources = stale::sources(&root.join("crates.txt"), &root.join("crates"));
    for watched in sources.iter().chain([&archive]) {
        println!("cargo::rerun-if-changed={}", watched.display());
    }
    if stale::is_stale(&archive, &sources) {
        build(&folder);
    }
    println!("cargo::rustc-link-search=native={}", folder.join("out").display());
    println!("cargo::rustc-link-lib=static=capi");
}

fn repository_root() -> PathBuf {
    let here = PathBuf::from(std::env::var_os("CARGO_MANIFEST_DIR").expect("cargo sets CARGO_MANIFEST_DIR"));
    here.ancestors().nth(2).expect("this crate stands in host/ of the repository").to_path_buf()
}

// The library for every processor of x86-64; unless it is told, `rt` builds for those with SSE4.2. host/demo has the same words.
const LIBRARY: [&str; 3] = ["lib", "--cpu", "x86-64"];

// Proves the crates that the library needs, where that has not been done here, and writes the library.
fn build(folder: &Path) {
    let task = LIBRARY.join(" ");
    match Command::new("rt").args(LIBRARY).current_dir(folder).status() {
        Ok(status) if status.success() => {}
        Ok(status) => panic!("rt {task} failed ({status}); run it in {} to see why", folder.display()),
        Err(error) => panic!("rt, the command of the Rattle toolchain, cannot be run: {error}"),
    }
}
