//! A run of the binary `lists`: every set of failing checks and some random lists, with a seed that is fixed so that
//! a failure here can be repeated.

use std::process::Command;

fn lists(arguments: &[&str]) -> (bool, String) {
    let out = Command::new(env!("CARGO_BIN_EXE_lists")).args(arguments).output().expect("lists runs");
    (out.status.success(), String::from_utf8_lossy(&out.stdout).into_owned())
}

#[test]
fn library_and_model_agree() {
    let (well, said) = lists(&["--calls", "1000", "--seed", "20"]);
    assert!(well, "{said}");
    assert!(said.contains("images agree") && said.contains("lists of sector writes that were cut"), "{said}");
}

#[test]
fn a_bad_option_is_refused() {
    assert!(!lists(&["--call", "5"]).0);
    assert!(!lists(&["--calls"]).0);
    assert!(!lists(&["--profiles", "all"]).0);
}
