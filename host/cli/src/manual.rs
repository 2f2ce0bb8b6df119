//! The manual page, mivrozh(1), made of the help texts.
use crate::arguments;
use crate::failure::Failure;
use crate::help;
use crate::sections::{Help, Item, Part};
use std::ffi::OsString;

/// What `mivrozh manual` prints.
pub fn shown(rest: &[OsString]) -> Result<String, Failure> {
    match rest {
        [] => Ok(page()),
        [word] if word == "--help" || word == "-h" => Ok(help::TOOL.into()),
        _ => Err(Failure::usage("'mivrozh manual' takes nothing else; see 'mivrozh --help'")),
    }
}

// The tool's lists that are no section under their title: the commands are shown by their own texts, and the exit
// status has its place.
const COMMANDS: &str = "Commands";
const EXIT_STATUS: &str = "Exit status";

/// The page, in the man macros of roff.
pub fn page() -> String {
    let tool = Help::of(help::TOOL);
    let commands: Vec<Help> = arguments::commands().iter().map(|command| Help::of(command.help())).collect();
    let mut page = Page { text: String::new() };
    page.line(&format!(".TH MIVROZH 1 \"\" \"mivrozh {}\" \"User Commands\"", env!("CARGO_PKG_VERSION")));
    page.line(".nh");
    page.line(".ad l");
    page.line(".SH NAME");
    page.line(&format!("{} \\- {}", escaped(tool.name), escaped(tool.summary)));
    page.line(".SH SYNOPSIS");
    for usage in tool.usage.iter().chain(commands.iter().flat_map(|command| &command.usage)) {
        page.line(&usage_line(usage));
        page.line(".br");
    }
    page.line(".SH DESCRIPTION");
    page.paragraphs(&tool);
    page.line(".SH COMMANDS");
    for command in &commands {
        page.line(&format!(".SS {}", escaped(command.name)));
        page.line(&format!("{}.", escaped(&capitalised(command.summary))));
        page.paragraphs(command);
        page.lists(command, |title| format!(".PP\n{}:", escaped(title)), &[]);
    }
    page.lists(&tool, |title| format!(".SH {}", escaped(&title.to_uppercase())), &[COMMANDS, EXIT_STATUS]);
    page.line(".SH EXIT STATUS");
    tool.items(EXIT_STATUS).for_each(|item| page.item(item));
    page.line(".SH EXAMPLES");
    for help in std::iter::once(&tool).chain(&commands) {
        page.examples(help);
    }
    page.text
}

struct Page {
    text: String,
}

impl Page {
    fn line(&mut self, line: &str) {
        self.text.push_str(line);
        self.text.push('\n');
    }

    fn paragraphs(&mut self, help: &Help) {
        for part in &help.parts {
            if let Part::Paragraph(text) = part {
                self.line(".PP");
                self.line(&escaped(text));
            }
        }
    }

    // Every list, under its title, but those that have a place elsewhere.
    fn lists(&mut self, help: &Help, heading: impl Fn(&str) -> String, elsewhere: &[&str]) {
        for part in &help.parts {
            match part {
                Part::List { title, items } if !elsewhere.contains(title) => {
                    self.line(&heading(title));
                    items.iter().for_each(|item| self.item(item));
                }
                _ => {}
            }
        }
    }

    fn item(&mut self, item: &Item) {
        self.line(".TP");
        self.line(&usage_line(item.term));
        self.line(&escaped(&item.text));
    }

    fn examples(&mut self, help: &Help) {
        for part in &help.parts {
            if let Part::Example(lines) = part {
                self.line(".PP");
                self.line(&format!("{}:", escaped(&capitalised(help.summary))));
                self.line(".PP");
                self.line(".RS 4");
                self.line(".nf");
                lines.iter().for_each(|line| self.line(&escaped(line)));
                self.line(".fi");
                self.line(".RE");
            }
        }
    }
}

// Text as roff takes it: no character has a meaning of its own, a hyphen is the one that is typed, and no line is a
// request.
fn escaped(text: &str) -> String {
    let mut line = String::new();
    if text.starts_with(['.', '\'']) {
        line.push_str("\\&");
    }
    for character in text.chars() {
        match character {
            '\\' => line.push_str("\\e"),
            '-' => line.push_str("\\-"),
            '\'' => line.push_str("\\(aq"),
            '"' => line.push_str("\\(dq"),
            '`' => line.push_str("\\(ga"),
            '^' => line.push_str("\\(ha"),
            '~' => line.push_str("\\(ti"),
            other => line.push(other),
        }
    }
    line
}

// Words to be typed in bold, and names of values, which are in capitals, in italics.
fn usage_line(usage: &str) -> String {
    let word = |word: &str| {
        let plain = word.trim_matches(['[', ']', '.', '|', ',']);
        let (before, after) = word.split_once(plain).unwrap_or((word, ""));
        match plain.chars().next() {
            Some(first) if first.is_uppercase() => format!("{before}\\fI{}\\fR{after}", escaped(plain)),
            Some(_) => format!("{before}\\fB{}\\fR{after}", escaped(plain)),
            None => escaped(word),
        }
    };
    usage.split_whitespace().map(word).collect::<Vec<_>>().join(" ")
}

fn capitalised(text: &str) -> String {
    let mut characters = text.chars();
    characters.next().map_or(String::new(), |first| first.to_uppercase().chain(characters).collect())
}

#[cfg(test)]
mod tests {
    use super::*;

    #[test]
    fn nothing_of_a_text_is_taken_for_a_request() {
        assert_eq!(escaped(r".x a\b it's --c"), r"\&.x a\eb it\(aqs \-\-c");
        assert_eq!(escaped("'x'"), r"\&\(aqx\(aq");
    }

    #[test]
    fn values_are_in_italics() {
        let line = r"\fBmivrozh\fR \fBread\fR [\fIOPTIONS\fR] \fB\-\-out\fR \fIFILE\fR";
        assert_eq!(usage_line("mivrozh read [OPTIONS] --out FILE"), line);
    }
}
