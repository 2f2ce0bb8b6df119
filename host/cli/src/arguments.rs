//! The command line: which command, its options and the image.
use crate::commands;
use crate::completions;
use crate::failure::{shown, Failure};
use crate::help;
use crate::manual;
use mivrozh::Refusal;
use std::collections::HashMap;
use std::ffi::{OsStr, OsString};
use std::os::unix::ffi::OsStrExt;
use std::path::{Path, PathBuf};

/// A command: its options that take a value, those that take none, its help, and what it does.
pub struct Command {
    pub name: &'static str,
    values: &'static [&'static [&'static str]],
    flags: &'static [&'static str],
    help: &'static str,
    pub run: fn(&Given) -> Result<(), Failure>,
}

// The options for a passphrase that the drive has, or for its first one, and for a new one.
const KEY_FILE: &[&str] = &["--key-file", "--key-file-offset", "--key-file-size"];
const NEW_KEY_FILE: &[&str] = &["--new-key-file", "--new-key-file-offset", "--new-key-file-size"];
const ITERATIONS: &[&str] = &["--iterations", "--iter-time"];

const COMMANDS: [Command; 10] = [
    Command {
        name: "format",
        values: &[&["--hash", "--key-size", "--checksum-iterations", "--stripes", "--uuid"], ITERATIONS, KEY_FILE],
        flags: &["--force"],
        help: help::FORMAT,
        run: commands::format,
    },
    Command {
        name: "add",
        values: &[&["--slot"], ITERATIONS, KEY_FILE, NEW_KEY_FILE],
        flags: &[],
        help: help::ADD,
        run: commands::add,
    },
    Command {
        name: "change",
        values: &[&["--slot", "--to"], ITERATIONS, KEY_FILE, NEW_KEY_FILE],
        flags: &[],
        help: help::CHANGE,
        run: commands::change,
    },
    Command { name: "revoke", values: &[&["--slot"]], flags: &["--force"], help: help::REVOKE, run: commands::revoke },
    Command { name: "slots", values: &[], flags: &["--details", "--json"], help: help::SLOTS, run: commands::slots },
    Command { name: "uuid", values: &[], flags: &[], help: help::UUID, run: commands::uuid },
    Command {
        name: "test",
        values: &[&["--slot"], KEY_FILE],
        flags: &["--verbose"],
        help: help::TEST,
        run: commands::test,
    },
    Command { name: "estimate", values: &[], flags: &["--json"], help: help::ESTIMATE, run: commands::estimate },
    Command {
        name: "read",
        values: &[&["--first", "--units", "--out", "--slot"], KEY_FILE],
        flags: &["--force"],
        help: help::READ,
        run: commands::read,
    },
    Command {
        name: "write",
        values: &[&["--first", "--in", "--slot"], KEY_FILE],
        flags: &[],
        help: help::WRITE,
        run: commands::write,
    },
];

/// Every command, for the manual page and the completions.
pub fn commands() -> &'static [Command] {
    &COMMANDS
}

pub enum Request {
    /// A text to be printed.
    Show(String),
    Run(Given),
}

/// What was given to a command.
pub struct Given {
    pub command: &'static Command,
    values: HashMap<&'static str, OsString>,
    flags: Vec<&'static str>,
    image: PathBuf,
}

pub fn parse(arguments: impl Iterator<Item = OsString>) -> Result<Request, Failure> {
    let arguments: Vec<OsString> = arguments.collect();
    let Some((name, rest)) = arguments.split_first() else {
        return Err(Failure::usage("a command is missing; 'mivrozh --help' lists them"));
    };
    match name.to_str() {
        Some("--help" | "-h" | "help") => return help_for(rest).map(Request::Show),
        Some("--version" | "-V") => return Ok(Request::Show(format!("mivrozh {}\n", env!("CARGO_PKG_VERSION")))),
        Some("manual") => return manual::shown(rest).map(Request::Show),
        Some("completions") => return completions::shown(rest).map(Request::Show),
        _ => {}
    }
    let command = Command::named(name)?;
    if rest.iter().take_while(|word| *word != "--").any(|word| word == "--help" || word == "-h") {
        return Ok(Request::Show(command.help.into()));
    }
    command.parse(rest).map(Request::Run)
}

// The help of the tool, or of a command.
fn help_for(words: &[OsString]) -> Result<String, Failure> {
    match words {
        [] => Ok(help::TOOL.into()),
        [name] => Ok(Command::named(name)?.help.into()),
        _ => Err(Failure::usage("help is given for one command at a time; see 'mivrozh --help'")),
    }
}

impl Command {
    fn named(name: &OsStr) -> Result<&'static Command, Failure> {
        let command = COMMANDS.iter().find(|command| name == command.name);
        command.ok_or_else(|| {
            Failure::usage(format!("there is no command '{}'; 'mivrozh --help' lists them", shown(name)))
        })
    }

    pub fn help(&self) -> &'static str {
        self.help
    }

    /// The names of its options.
    #[cfg(test)]
    pub fn options(&self) -> impl Iterator<Item = &'static str> {
        self.values.iter().copied().flatten().chain(self.flags).copied()
    }

    fn parse(&'static self, words: &[OsString]) -> Result<Given, Failure> {
        let mut given = Given { command: self, values: HashMap::new(), flags: Vec::new(), image: PathBuf::new() };
        let mut images = Vec::new();
        let mut words = words.iter();
        while let Some(word) = words.next() {
            match word.as_bytes() {
                b"--" => images.extend(words.by_ref()),
                option if option.starts_with(b"--") => self.option(option, &mut words, &mut given)?,
                option if option.starts_with(b"-") => return Err(self.unknown(word)),
                _ => images.push(word),
            }
        }
        match images[..] {
            [image] => given.image = image.into(),
            [] => return Err(self.usage("the image is missing")),
            _ => return Err(self.usage("more than one image was given (a passphrase is never an argument)")),
        }
        Ok(given)
    }

    // `--name value`, `--name=value`, or a flag. A value need not be text.
    fn option<'a>(
        &self,
        option: &[u8],
        words: &mut impl Iterator<Item = &'a OsString>,
        given: &mut Given,
    ) -> Result<(), Failure> {
        let mut parts = option.splitn(2, |&byte| byte == b'=').map(OsStr::from_bytes);
        let (name, inline) = (parts.next().unwrap_or_default(), parts.next());
        if let Some(flag) = self.flags.iter().find(|flag| name == **flag) {
            if inline.is_some() {
                return Err(self.usage(&format!("{flag} takes no value")));
            }
            given.flags.push(flag);
            return Ok(());
        }
        let Some(known) = self.values.iter().copied().flatten().find(|known| name == **known) else {
            return Err(self.unknown(name));
        };
        let Some(value) = inline.or_else(|| words.next().map(OsString::as_os_str)) else {
            return Err(self.usage(&format!("{known} needs a value")));
        };
        match given.values.insert(known, value.into()) {
            None => Ok(()),
            Some(_) => Err(self.usage(&format!("{known} was given twice"))),
        }
    }

    fn unknown(&self, option: &OsStr) -> Failure {
        self.usage(&format!("there is no option {}", shown(option)))
    }

    pub fn usage(&self, what: &str) -> Failure {
        Failure::usage(format!("{what}; see 'mivrozh {} --help'", self.name))
    }
}

impl Given {
    pub fn image(&self) -> &Path {
        &self.image
    }

    pub fn has(&self, flag: &str) -> bool {
        self.flags.contains(&flag)
    }

    pub fn value(&self, name: &str) -> Option<&OsStr> {
        self.values.get(name).map(OsString::as_os_str)
    }

    pub fn required(&self, name: &str) -> Result<&OsStr, Failure> {
        self.value(name).ok_or_else(|| self.command.usage(&format!("{name} is missing")))
    }

    pub fn number(&self, name: &str) -> Result<Option<u64>, Failure> {
        let Some(value) = self.value(name) else { return Ok(None) };
        match value.to_str().and_then(|text| text.parse().ok()) {
            Some(number) => Ok(Some(number)),
            None => Err(self.command.usage(&format!("{name} needs a number, not '{}'", shown(value)))),
        }
    }

    pub fn number_u32(&self, name: &str) -> Result<Option<u32>, Failure> {
        let Some(number) = self.number(name)? else { return Ok(None) };
        match u32::try_from(number) {
            Ok(number) => Ok(Some(number)),
            Err(_) => Err(self.command.usage(&format!("{name} is at most {}, not {number}", u32::MAX))),
        }
    }

    /// A slot's number. The engine refuses those that there are not; of the numbers that do not come so far it is said here.
    pub fn slot(&self, name: &str) -> Result<Option<u8>, Failure> {
        let Some(number) = self.number(name)? else { return Ok(None) };
        match u8::try_from(number) {
            Ok(number) => Ok(Some(number)),
            Err(_) => {
                let sentence = format!("there is no key slot {number}; use a number from 1 to 8");
                Err(Failure::refused_because(Refusal::BadSlot, sentence))
            }
        }
    }

    /// Standard input can be used once.
    pub fn check_standard_input(&self) -> Result<(), Failure> {
        let uses =
            ["--key-file", "--new-key-file", "--in"].iter().filter(|name| self.value(name) == Some(OsStr::new("-")));
        match uses.count() {
            0 | 1 => Ok(()),
            _ => Err(self.command.usage("'-' was given twice, and standard input can be read once")),
        }
    }
}
