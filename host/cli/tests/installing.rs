//! What installers ask the tool for: the manual page and the completions, made of the help texts.
mod common;
use common::*;
use std::path::Path;
use std::process::{Command, Stdio};

// The lines of a list in a help text.
fn list<'a>(help: &'a str, title: &str) -> Vec<&'a str> {
    let (_, rest) = help.split_once(title).expect("the list");
    rest.lines().take_while(|line| line.starts_with(' ')).collect()
}

// The commands that the tool's help lists.
fn commands(folder: &Folder) -> Vec<String> {
    let help = folder.line("--help").accepted().out;
    let names = list(&help, "\nCommands:\n").into_iter().filter_map(|line| line.split_whitespace().next());
    let names: Vec<String> = names.map(str::to_owned).collect();
    assert!(names.len() >= 9, "{names:?}");
    names
}

// The options in a command's help, with the names of their values: "--slot N". Every command has some, but for one.
fn options(folder: &Folder, command: &str) -> Vec<String> {
    let help = folder.line(&format!("{command} --help")).accepted().out;
    if command == "uuid" {
        assert!(!help.contains("Options"), "{help}");
        return Vec::new();
    }
    let lines = list(&help, "\nOptions:\n").into_iter().map(|line| line.trim().split("  ").next().expect("a term"));
    lines.filter(|term| term.starts_with("--")).map(str::to_owned).collect()
}

// The page as groff shows it on wide paper, without a warning.
fn page(folder: &Folder) -> String {
    let source = folder.put("mivrozh.1", folder.line("manual").accepted().out);
    let mut groff = Command::new("groff");
    groff.args(["-man", "-ww", "-Tascii", "-rLL=400n", "-P-c", "-P-b", "-P-u"]).arg(source);
    said(&mut groff).accepted().out
}

// From a heading to the next of its kind.
fn section<'a>(page: &'a str, heading: &str, indent: &str) -> &'a str {
    let start = page.find(&format!("\n{indent}{heading}\n")).unwrap_or_else(|| panic!("{heading} is in the page"));
    let rest = &page[start + 1 + indent.len() + heading.len()..];
    let is_heading =
        |line: &str| line.strip_prefix(indent).is_some_and(|rest| rest.starts_with(|c: char| c.is_alphabetic()));
    let end = rest.match_indices('\n').find(|(at, _)| is_heading(&rest[at + 1..])).map_or(rest.len(), |(at, _)| at);
    &rest[..end]
}

#[test]
fn the_manual_page_has_every_option_of_every_command() {
    let folder = Folder::new();
    let page = page(&folder);
    for command in commands(&folder) {
        let section = section(&page, &format!("mivrozh {command}"), "   ");
        let options = options(&folder, &command);
        assert_eq!(options.is_empty(), command == "uuid");
        for option in options {
            assert!(section.contains(&format!("\n       {option}")), "{command} {option} is not in:\n{section}");
        }
    }
}

#[test]
fn the_manual_page_says_what_the_help_says() {
    let folder = Folder::new();
    let (page, help) = (page(&folder), folder.line("--help").accepted().out);
    for heading in ["NAME", "SYNOPSIS", "DESCRIPTION", "COMMANDS", "FOR INSTALLERS", "EXIT STATUS", "EXAMPLES"] {
        assert!(!section(&page, heading, "").trim().is_empty(), "{heading}");
    }
    let words = |text: &str| text.split_whitespace().collect::<Vec<_>>().join(" ");
    let after_a_cut = words(section(&page, "AFTER A POWER CUT", ""));
    for line in list(&help, "\nAfter a power cut:\n") {
        assert!(after_a_cut.contains(&words(line)), "{line}");
    }
    let (status, examples) = (words(section(&page, "EXIT STATUS", "")), words(section(&page, "EXAMPLES", "")));
    for line in list(&help, "\nExit status:\n") {
        assert!(status.contains(&words(line)), "{line}");
    }
    for line in list(&help, "\nExample:\n") {
        assert!(examples.contains(&words(line)), "{line}");
    }
    for command in commands(&folder) {
        let help = folder.line(&format!("{command} --help")).accepted().out;
        for paragraph in help.split("\n\n").filter(|block| block.ends_with('.')) {
            assert!(words(&page).contains(&words(paragraph)), "{paragraph}");
        }
        list(&help, "\nExample:\n").iter().for_each(|line| assert!(examples.contains(&words(line)), "{line}"));
    }
}

// What bash offers after these words, sorted. The last word is the one that is being typed.
fn offered(folder: &Folder, words: &[&str]) -> Vec<String> {
    let script = folder.put("completions.bash", folder.line("completions bash").accepted().out);
    let run =
        r#"source "$1"; shift; COMP_WORDS=("$@"); COMP_CWORD=$(($# - 1)); _mivrozh; printf '%s\n' "${COMPREPLY[@]}""#;
    let mut bash = Command::new("bash");
    bash.args(["--norc", "-uc", run, "bash"]).arg(script).args(words).current_dir(folder.path("")).stdin(Stdio::null());
    let mut lines: Vec<String> =
        said(&mut bash).accepted().out.lines().filter(|line| !line.is_empty()).map(str::to_owned).collect();
    lines.sort();
    lines
}

#[test]
fn bash_completes() {
    let folder = Folder::new();
    folder.put("drive one.img", "");
    folder.put("drive.key", "");
    assert_eq!(offered(&folder, &["mivrozh", "revo"]), ["revoke"]);
    let mut all = commands(&folder);
    all.extend(["--help", "--version", "completions", "manual"].map(str::to_owned));
    all.sort_unstable();
    assert_eq!(offered(&folder, &["mivrozh", ""]), all);
    assert_eq!(offered(&folder, &["mivrozh", "add", "--key-file", "dr"]), ["drive one.img", "drive.key"]);
    assert_eq!(offered(&folder, &["mivrozh", "add", "dr"]), ["drive one.img", "drive.key"]);
    let slots = ["1", "2", "3", "4", "5", "6", "7", "8"];
    assert_eq!(offered(&folder, &["mivrozh", "revoke", "--slot", ""]), slots);
    assert_eq!(offered(&folder, &["mivrozh", "change", "--to", ""]), slots);
    assert_eq!(offered(&folder, &["mivrozh", "revoke", "--slot", "=", ""]), slots);
    assert_eq!(offered(&folder, &["mivrozh", "revoke", "--slot", "="]), slots);
    assert_eq!(offered(&folder, &["mivrozh", "format", "--key-size", ""]), ["256", "512"]);
    assert_eq!(offered(&folder, &["mivrozh", "format", "--hash", ""]), ["sha1", "sha256"]);
    assert!(offered(&folder, &["mivrozh", "format", "--iterations", ""]).is_empty());
    assert_eq!(offered(&folder, &["mivrozh", "slots", "--"]), ["--details", "--help", "--json"]);
    assert_eq!(offered(&folder, &["mivrozh", "slots", "--details", "dr"]), ["drive one.img", "drive.key"]);
    assert_eq!(offered(&folder, &["mivrozh", "uuid", "dr"]), ["drive one.img", "drive.key"]);
    assert_eq!(offered(&folder, &["mivrozh", "completions", ""]), ["bash", "fish", "zsh"]);
    assert!(offered(&folder, &["mivrozh", "manual", ""]).is_empty());
    for command in commands(&folder) {
        let options = options(&folder, &command);
        let mut names: Vec<&str> = options.iter().map(|term| term.split(' ').next().expect("a name")).collect();
        names.push("--help");
        names.sort_unstable();
        assert_eq!(offered(&folder, &["mivrozh", &command, "-"]), names, "{command}");
    }
}

#[test]
fn fish_completes() {
    if !is_there("fish") {
        return missing("fish is not installed");
    }
    let folder = Folder::new();
    folder.put("drive.img", "");
    folder.put("completions.fish", folder.line("completions fish").accepted().out);
    let offered = |line: &str| {
        let script = format!("source completions.fish; complete -C '{line}'");
        let said = said(Command::new("fish").args(["-N", "-c", &script]).current_dir(folder.path(""))).accepted();
        said.out.lines().map(|line| line.split('\t').next().unwrap_or(line).to_owned()).collect::<Vec<_>>()
    };
    assert_eq!(offered("mivrozh revo"), ["revoke"]);
    assert_eq!(offered("mivrozh revoke --slot "), ["1", "2", "3", "4", "5", "6", "7", "8"]);
    assert_eq!(offered("mivrozh test --key-file dr"), ["drive.img"]);
    assert_eq!(offered("mivrozh test dr"), ["drive.img"]);
    assert_eq!(offered("mivrozh format --key-s"), ["--key-size"]);
    assert_eq!(offered("mivrozh slots --det"), ["--details"]);
    assert_eq!(offered("mivrozh slots --details dr"), ["drive.img"]);
}

// Each script names every command and option, and the shell, where it is there, can read it.
#[test]
fn every_shell_can_read_its_completions() {
    let folder = Folder::new();
    for shell in ["bash", "zsh", "fish"] {
        let text = folder.line(&format!("completions {shell}")).accepted().out;
        for command in commands(&folder) {
            assert!(text.contains(&command), "{shell}: {command}");
            for option in options(&folder, &command) {
                let name = option.split(' ').next().expect("a name").trim_start_matches('-');
                assert!(text.contains(name), "{shell}: {command} {name}");
            }
        }
        let script = folder.put("script", text);
        if is_there(shell) {
            said(Command::new(shell).arg("-n").arg(script)).accepted();
        } else {
            missing(&format!("{shell} is not installed"));
        }
    }
}

fn is_there(program: &str) -> bool {
    let folders = std::env::var_os("PATH").unwrap_or_default();
    std::env::split_paths(&folders).any(|folder| Path::new(&folder).join(program).is_file())
}

#[test]
fn installers_words_are_checked() {
    let folder = Folder::new();
    folder.line("manual page").failed(64, "takes nothing else");
    folder.line("completions").failed(64, "bash, zsh or fish");
    folder.line("completions tcsh").failed(64, "bash, zsh or fish");
    folder.line("completions bash zsh").failed(64, "bash, zsh or fish");
    let help = folder.line("--help").accepted().out;
    assert_eq!(folder.line("manual --help").accepted().out, help);
    assert_eq!(folder.line("completions --help").accepted().out, help);
}
