//! Programs in C: compiled against header and archive, and run.
use std::path::{Path, PathBuf};
use std::process::{Command, Output};

pub fn host() -> PathBuf {
    Path::new(env!("CARGO_MANIFEST_DIR")).parent().expect("host/").to_path_buf()
}

pub fn of_tests(name: &str) -> PathBuf {
    Path::new(env!("CARGO_MANIFEST_DIR")).join("tests").join(name)
}

/// What the command printed; it must succeed.
pub fn run(command: &mut Command) -> String {
    let (output, said) = ended(command);
    assert!(output.status.success(), "{command:?}: {}\n{said}", output.status);
    String::from_utf8(output.stdout).expect("text")
}

/// How the command ended, and all that it printed, errors last.
pub fn ended(command: &mut Command) -> (Output, String) {
    let output = command.output().unwrap_or_else(|error| panic!("{command:?}: {error}"));
    let said = [&output.stdout, &output.stderr].map(|bytes| String::from_utf8_lossy(bytes).into_owned()).concat();
    (output, said)
}

pub fn compile(compiler: &str, options: &[&str], sources: &[&Path], name: &str) -> PathBuf {
    let program = Path::new(env!("CARGO_TARGET_TMPDIR")).join(name);
    run(Command::new(compiler)
        .args(["-g", "-Wall", "-Wextra", "-Werror", "-pedantic", "-I"])
        .arg(host().join("include"))
        .args(options)
        .args(sources)
        .arg(host().join("../crates/capi/out/libcapi.a"))
        .arg("-o")
        .arg(&program));
    program
}
