//! Completions for the shells bash, zsh and fish, made of the help texts.
use crate::arguments;
use crate::failure::Failure;
use crate::help;
use crate::sections::Help;
use std::ffi::OsString;
use std::fmt::Write;

/// What `mivrozh completions SHELL` prints.
pub fn shown(rest: &[OsString]) -> Result<String, Failure> {
    match rest {
        [word] if word == "--help" || word == "-h" => Ok(help::TOOL.into()),
        [shell] if shell == "bash" => Ok(bash(&commands())),
        [shell] if shell == "zsh" => Ok(zsh(&commands())),
        [shell] if shell == "fish" => Ok(fish(&commands())),
        _ => Err(Failure::usage("completions are for one shell: bash, zsh or fish; see 'mivrozh --help'")),
    }
}

const SHELLS: [&str; 3] = ["bash", "zsh", "fish"];

// What a shell offers for a command.
struct Command {
    name: &'static str,
    text: String,
    options: Vec<Choice>,
    argument: Values,
}

struct Choice {
    name: &'static str,
    text: String,
    values: Values,
}

// What may stand after an option, or as a command's argument.
enum Values {
    /// The option takes no value.
    None,
    Files,
    Words(&'static [&'static str]),
    /// A value that the user knows best.
    Other,
}

const SLOTS: &[&str] = &["1", "2", "3", "4", "5", "6", "7", "8"];

// The commands with their options, and those for installers.
fn commands() -> Vec<Command> {
    let mut commands: Vec<Command> = arguments::commands().iter().map(|command| of_help(command.help())).collect();
    for item in Help::of(help::TOOL).items("For installers") {
        let name = item.term.split(' ').next().unwrap_or_default();
        let argument = if name == "completions" { Values::Words(&SHELLS) } else { Values::None };
        commands.push(Command { name, text: item.text.clone(), options: Vec::new(), argument });
    }
    commands
}

fn of_help(text: &'static str) -> Command {
    let help = Help::of(text);
    let name = help.name.rsplit(' ').next().unwrap_or_default();
    let options = help.items("Options").map(|item| {
        let (name, value) = item.term.split_once(' ').unwrap_or((item.term, ""));
        Choice { name, text: item.text.clone(), values: values_of(name, value) }
    });
    let options = options.chain([Choice { name: "--help", text: "say more".into(), values: Values::None }]).collect();
    let argument = if help.usage.iter().any(|usage| usage.ends_with("IMAGE")) { Values::Files } else { Values::Other };
    Command { name, text: help.summary.to_owned(), options, argument }
}

fn values_of(option: &str, value: &str) -> Values {
    match (option, value) {
        (_, "") => Values::None,
        (_, "FILE" | "IMAGE" | "FOLDER") => Values::Files,
        ("--slot" | "--to", _) => Values::Words(SLOTS),
        ("--hash", _) => Values::Words(&["sha1", "sha256"]),
        ("--key-size", _) => Values::Words(&["256", "512"]),
        _ => Values::Other,
    }
}

const BASH: &str = r#"# Completions of mivrozh for bash.
_mivrozh() {
    local word=${COMP_WORDS[COMP_CWORD]} before=${COMP_WORDS[COMP_CWORD - 1]} words= files=
    # "--name=value" comes as three words.
    if [ "$word" = "=" ]; then
        word=
    elif [ "$before" = "=" ]; then
        before=${COMP_WORDS[COMP_CWORD - 2]}
    fi
    if [ "$COMP_CWORD" -eq 1 ]; then
        words="@COMMANDS@ --help --version"
    else
        case "${COMP_WORDS[1]} $before" in
@CASES@        esac
    fi
    COMPREPLY=()
    if [ -n "$words" ]; then
        mapfile -t COMPREPLY < <(compgen -W "$words" -- "$word")
    elif [ -n "$files" ]; then
        mapfile -t COMPREPLY < <(compgen -f -- "$word")
        compopt -o filenames 2>/dev/null
    fi
    return 0
}
complete -F _mivrozh mivrozh
"#;

// A case for each option that takes a value, and one for all else that a command takes.
fn bash(commands: &[Command]) -> String {
    let mut cases = String::new();
    for command in commands {
        for option in &command.options {
            let offered = match option.values {
                Values::None => continue,
                ref values => bash_words(values),
            };
            let _ = writeln!(cases, "        \"{} {}\") {offered} ;;", command.name, option.name);
        }
        let options = names(command.options.iter().map(|option| option.name));
        let argument = bash_words(&command.argument);
        let _ = writeln!(
            cases,
            "        \"{} \"*) if [[ $word = -* ]]; then words=\"{options}\"; else {argument}; fi ;;",
            command.name
        );
    }
    BASH.replace("@COMMANDS@", &names(commands.iter().map(|command| command.name))).replace("@CASES@", &cases)
}

fn bash_words(values: &Values) -> String {
    match values {
        Values::Files => "files=yes".into(),
        Values::Words(words) => format!("words=\"{}\"", words.join(" ")),
        Values::None | Values::Other => ":".into(),
    }
}

fn names(names: impl Iterator<Item = &'static str>) -> String {
    names.collect::<Vec<_>>().join(" ")
}

fn zsh(commands: &[Command]) -> String {
    let mut text =
        String::from("#compdef mivrozh\n# Completions of mivrozh for zsh.\n_mivrozh() {\n    local -a commands\n");
    text.push_str("    commands=(\n");
    for command in commands {
        let _ = writeln!(text, "        {}", quoted(&format!("{}:{}", command.name, command.text.replace(':', "\\:"))));
    }
    text.push_str("    )\n    if (( CURRENT == 2 )); then\n        _describe -t commands command commands\n");
    text.push_str("        return\n    fi\n    shift words\n    (( CURRENT-- ))\n    case $words[1] in\n");
    for command in commands {
        if let Values::None = command.argument {
            let _ = writeln!(text, "    {}) ;;", command.name);
            continue;
        }
        let _ = writeln!(text, "    {})\n        _arguments \\", command.name);
        for option in &command.options {
            let label = option.text.replace('\\', "\\\\").replace('[', "\\[").replace(']', "\\]").replace(':', "\\:");
            let equals = if matches!(option.values, Values::None) { "" } else { "=" };
            let spec = format!("{}{equals}[{label}]{}", option.name, zsh_values(&option.values));
            let _ = writeln!(text, "            {} \\", quoted(&spec));
        }
        let _ = writeln!(text, "            {}\n        ;;", quoted(&format!("1{}", zsh_values(&command.argument))));
    }
    text.push_str("    esac\n}\n_mivrozh \"$@\"\n");
    text
}

fn zsh_values(values: &Values) -> String {
    match values {
        Values::None => String::new(),
        Values::Files => ":file:_files".into(),
        Values::Words(words) => format!(":value:({})", words.join(" ")),
        Values::Other => ":value: ".into(),
    }
}

fn fish(commands: &[Command]) -> String {
    let mut text = String::from("# Completions of mivrozh for fish.\ncomplete -c mivrozh -f\n");
    for command in commands {
        let about = quoted(&command.text);
        let _ = writeln!(text, "complete -c mivrozh -n __fish_use_subcommand -a {} -d {about}", command.name);
    }
    for command in commands {
        let after = format!("complete -c mivrozh -n '__fish_seen_subcommand_from {}'", command.name);
        for option in &command.options {
            let (name, about) = (option.name.trim_start_matches('-'), quoted(&option.text));
            let _ = writeln!(text, "{after} -l {name}{} -d {about}", fish_values(&option.values));
        }
        match command.argument {
            Values::Files => _ = writeln!(text, "{after} -F"),
            Values::Words(words) => _ = writeln!(text, "{after} -a '{}'", words.join(" ")),
            Values::None | Values::Other => {}
        }
    }
    text
}

fn fish_values(values: &Values) -> String {
    match values {
        Values::None => String::new(),
        Values::Files => " -r -F".into(),
        Values::Words(words) => format!(" -x -a '{}'", words.join(" ")),
        Values::Other => " -x".into(),
    }
}

// A word between single quotes, as all three shells take it.
fn quoted(text: &str) -> String {
    format!("'{}'", text.replace('\'', "'\\''"))
}

#[cfg(test)]
mod tests {
    use super::*;

    // The options in a command's help are those that the command takes.
    #[test]
    fn the_help_names_every_option() {
        for command in arguments::commands() {
            let mut said: Vec<&str> = of_help(command.help()).options.iter().map(|option| option.name).collect();
            let mut taken: Vec<&str> = command.options().chain(["--help"]).collect();
            said.sort_unstable();
            taken.sort_unstable();
            assert_eq!(said, taken, "{}", command.name);
        }
    }

    #[test]
    fn a_quote_ends_no_word() {
        assert_eq!(quoted("it's"), r"'it'\''s'");
    }
}
