//! Elsewhere than on x86-64 Linux the binding does not compile, and says why.
//!
//! The other systems' standard libraries need not be there: the module that guards the binding is compiled without any,
//! which the compiler allows where RUSTC_BOOTSTRAP is set.
use std::path::Path;
use std::process::Command;

const AROUND: &str = "\
#![feature(no_core, rustc_attrs)]
#![allow(internal_features, unused_macros)]
#![no_core]
#[rustc_builtin_macro]
macro_rules! compile_error { () => {} }
";

// What the compiler says about the guard for a system.
fn said_for(target: &str) -> String {
    let folder = Path::new(env!("CARGO_TARGET_TMPDIR"));
    let (source, out) = (folder.join(format!("{target}.rs")), folder.join(format!("{target}.rmeta")));
    let guard = concat!(env!("CARGO_MANIFEST_DIR"), "/src/platform.rs");
    std::fs::write(&source, format!("{AROUND}#[path = {guard:?}]\nmod platform;\n")).expect("a file");
    let mut rustc = Command::new("rustc");
    rustc.env("RUSTC_BOOTSTRAP", "1").args(["--edition", "2021", "--crate-type", "lib", "--crate-name", "guard"]);
    let output = rustc.args(["--emit", "metadata", "--target", target, "-o"]).arg(out).arg(source).output();
    String::from_utf8_lossy(&output.expect("rustc runs").stderr).into_owned()
}

#[test]
fn other_systems_are_refused() {
    for target in ["aarch64-unknown-linux-gnu", "x86_64-apple-darwin", "x86_64-pc-windows-msvc"] {
        let said = said_for(target);
        assert!(said.contains("error: mivrozh is for x86-64 Linux"), "{target}: {said}");
    }
    let said = said_for("x86_64-unknown-linux-gnu");
    assert!(!said.contains("mivrozh is for"), "{said}");
}
