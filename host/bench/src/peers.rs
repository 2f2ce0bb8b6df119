//! What is measured against: the commands `openssl` and `cryptsetup`.

use mivrozh::Profile;
use std::path::Path;
use std::process::{Command, Stdio};

/// Turns off what the variable OPENSSL_ia32cap names; see OPENSSL_ia32cap(3).
#[derive(Clone, Copy)]
pub struct Without {
    pub name: &'static str,
    pub mask: Option<&'static str>,
}

/// Everything that the machine has.
pub const NOTHING: Without = Without { name: "as it is", mask: None };
/// SHA extensions off: bit 29 of the second vector.
pub const SHA_EXTENSIONS: Without = Without { name: "without SHA extensions", mask: Some(":~0x20000000") };
/// AES-NI and the carry-less multiplication off: bits 57 and 33. OpenSSL then takes its bit-sliced code.
pub const AES_NI: Without = Without { name: "without AES-NI", mask: Some("~0x200000200000000") };
/// SSSE3 off as well, bit 41: OpenSSL then takes its code with tables.
pub const AES_NI_AND_SSSE3: Without = Without { name: "without AES-NI and SSSE3", mask: Some("~0x200020200000000") };

fn openssl(without: Without) -> Command {
    let mut command = Command::new("openssl");
    command.env_remove("OPENSSL_ia32cap");
    if let Some(mask) = without.mask {
        command.env("OPENSSL_ia32cap", mask);
    }
    command
}

/// Runs a command that must succeed, and gives what it printed.
pub fn run(command: &mut Command) -> Result<String, String> {
    let out = command.stdin(Stdio::null()).output().map_err(|e| format!("{command:?} cannot be run: {e}"))?;
    if !out.status.success() {
        return Err(format!("{command:?}: {}: {}", out.status, String::from_utf8_lossy(&out.stderr).trim()));
    }
    Ok(String::from_utf8_lossy(&out.stdout).into_owned())
}

/// One PBKDF2 derivation of a key of the profile by `openssl kdf`.
pub fn kdf(without: Without, profile: Profile, count: u32) -> Result<(), String> {
    let (length, count) = (profile.key_bytes().to_string(), format!("iter:{count}"));
    let digest = format!("digest:{}", profile.hash().name());
    let named = ["-kdfopt", &digest, "-kdfopt", "pass:passphrase", "-kdfopt", "salt:saltsaltsaltsalt"];
    let mut command = openssl(without);
    command.args(["kdf", "-keylen", &length]).args(named).args(["-kdfopt", &count, "PBKDF2"]);
    run(&mut command).map(|_| ())
}

/// Bytes a second of AES-XTS on pieces of 512 bytes by `openssl speed`.
pub fn xts(without: Without, bits: usize, decipher: bool) -> Result<f64, String> {
    let cipher = format!("aes-{}-xts", bits / 2);
    let mut command = openssl(without);
    command.args(["speed", "-mr", "-seconds", "1", "-bytes", "512", "-evp", &cipher]);
    if decipher {
        command.arg("-decrypt");
    }
    let said = run(&mut command)?;
    let figure = said.lines().find(|l| l.starts_with("+F:")).and_then(|l| l.rsplit(':').next());
    figure.and_then(|f| f.trim().parse().ok()).ok_or(format!("openssl speed printed no figure: {said}"))
}

fn cryptsetup(arguments: &[&str], image: &Path) -> Result<(), String> {
    run(Command::new("cryptsetup").args(arguments).arg(image)).map(|_| ())
}

/// A drive with this count, the passphrase in slot 1.
pub fn format(profile: Profile, image: &Path, passphrase: &Path, count: &str) -> Result<(), String> {
    let file = passphrase.to_str().expect("a path of text");
    let (hash, bits) = (profile.hash().name(), (8 * profile.key_bytes()).to_string());
    let drive = ["--type", "luks1", "--cipher", "aes-xts-plain64", "--hash", hash, "--key-size", &bits];
    let mut arguments = vec!["luksFormat", "--batch-mode", "--pbkdf-force-iterations", count, "--key-file", file];
    arguments.extend(drive);
    cryptsetup(&arguments, image)
}

pub fn test_passphrase(image: &Path, passphrase: &Path) -> Result<(), String> {
    cryptsetup(&["open", "--test-passphrase", "--key-file", passphrase.to_str().expect("a path of text")], image)
}

/// Adds `new` in slot 2.
pub fn add(image: &Path, passphrase: &Path, new: &Path, count: &str) -> Result<(), String> {
    let file = passphrase.to_str().expect("a path of text");
    let options = ["--batch-mode", "--pbkdf-force-iterations", count, "--key-file", file, "--new-key-slot", "1"];
    run(Command::new("cryptsetup").arg("luksAddKey").args(options).args([image, new])).map(|_| ())
}
