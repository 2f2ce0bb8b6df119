//! No branch and no address that the library works out comes from a secret, as memcheck sees it; and memcheck sees it.
//! What is marked as secret and what is declared public stands in `constant_time.c`.
#[allow(dead_code)]
mod programs;
use programs::{compile, ended, of_tests};
use std::path::PathBuf;
use std::process::Command;

// Ends the program by this status where memcheck has made a report.
const REPORTED: i32 = 99;

fn program(name: &str) -> PathBuf {
    compile("gcc", &[], &[&of_tests("constant_time.c")], name)
}

// The status that the program ends with under memcheck, and what both printed. A report names the innermost function
// only: memcheck cannot follow the library's frames further. Nothing is suppressed.
fn under_memcheck(name: &str, mode: &[&str]) -> (Option<i32>, String) {
    let mut command = Command::new("valgrind");
    command.args(["--num-callers=1", "--error-limit=no", "--track-origins=no", "--default-suppressions=no"]);
    command.arg(format!("--error-exitcode={REPORTED}")).arg(program(name)).args(mode);
    let (output, said) = ended(&mut command);
    (output.status.code(), said)
}

// The functions that the reports name, each with the number of its instructions that were reported.
fn reported(said: &str) -> String {
    let mut functions = std::collections::BTreeMap::new();
    for line in said.lines() {
        if let Some((_, place)) = line.split_once("   at 0x") {
            *functions.entry(place.split(' ').nth(1).unwrap_or("?")).or_insert(0) += 1;
        }
    }
    functions.iter().map(|(function, places)| format!("{function}: {places}\n")).collect()
}

#[test]
fn no_branch_and_no_address_comes_from_a_secret() {
    let (status, said) = under_memcheck("constant-time", &[]);
    assert!(status == Some(0) && said.contains("\nall as expected\n"), "{said}\nreported:\n{}", reported(&said));
}

// The library's own comparison of checksums is reported where these are not declared public: in slots::key_matches, or, where the
// compiler has inlined that, in the trial of a slot; and in each call that is given a key.
#[test]
fn the_verdict_on_a_key_is_seen_where_it_is_not_declared_public() {
    let (status, said) = under_memcheck("constant-time-verdict", &["--verdict"]);
    println!("reported:\n{}", reported(&said));
    assert_eq!(status, Some(REPORTED), "{said}");
    for function in ["slots::", "mivrozh_add: ", "mivrozh_read: ", "mivrozh_write: "] {
        assert!(reported(&said).contains(function), "{function}\n{said}");
    }
}

#[test]
fn a_branch_and_an_index_from_a_secret_are_seen() {
    for (mode, report, function) in [
        ("--branch", "Conditional jump or move depends on uninitialised value(s)", "branch_on: 1\n"),
        ("--index", "Use of uninitialised value of size 8", "index_from: 1\n"),
    ] {
        let (status, said) = under_memcheck(&format!("constant-time{mode}"), &[mode]);
        assert_eq!((status, reported(&said).as_str()), (Some(REPORTED), function), "{said}");
        assert!(said.contains(report), "{said}");
    }
}

#[test]
fn without_memcheck_nothing_is_claimed() {
    let (output, said) = ended(&mut Command::new(program("constant-time-alone")));
    assert!(output.status.code() == Some(1) && said.contains("without valgrind"), "{said}");
}
