//! The structure of a help text, for the manual page and the completions: summary, usage, paragraphs and lists.

/// A help text. Its first line is "NAME: SUMMARY", then come the usage and the parts, with empty lines between them.
pub struct Help {
    pub name: &'static str,
    pub summary: &'static str,
    pub usage: Vec<&'static str>,
    pub parts: Vec<Part>,
}

pub enum Part {
    Paragraph(String),
    /// A title with a colon, and lines of two columns under it.
    List {
        title: &'static str,
        items: Vec<Item>,
    },
    /// Lines to be shown as they are.
    Example(Vec<&'static str>),
}

#[derive(Debug, PartialEq)]
pub struct Item {
    pub term: &'static str,
    pub text: String,
}

impl Help {
    pub fn of(text: &'static str) -> Help {
        let mut help = Help { name: "", summary: "", usage: Vec::new(), parts: Vec::new() };
        for block in text.trim_end().split("\n\n") {
            let lines: Vec<&str> = block.lines().collect();
            let first = lines.first().copied().unwrap_or_default();
            if help.name.is_empty() {
                (help.name, help.summary) = first.split_once(": ").unwrap_or((first, ""));
            } else if let Some(usage) = first.strip_prefix("Usage:") {
                help.usage = std::iter::once(usage).chain(lines[1..].iter().copied()).map(str::trim).collect();
            } else {
                help.parts.push(part(&lines));
            }
        }
        help
    }

    /// The items of the lists with this title.
    pub fn items(&self, wanted: &'static str) -> impl Iterator<Item = &Item> {
        let items = move |part| match part {
            &Part::List { title, ref items } if title == wanted => items.as_slice(),
            _ => &[],
        };
        self.parts.iter().flat_map(items)
    }
}

fn part(lines: &[&'static str]) -> Part {
    match lines[0].strip_suffix(':') {
        Some(title) if lines.len() > 1 && lines[1..].iter().all(|line| line.starts_with(' ')) => {
            if title.starts_with("Example") {
                return Part::Example(lines[1..].iter().map(|line| line.trim_start()).collect());
            }
            Part::List { title, items: items(&lines[1..]) }
        }
        _ => Part::Paragraph(lines.join(" ")),
    }
}

// Lines of two columns. The second begins where two spaces or more have gone before, in some line; a line that has
// nothing in the first goes on with the item before it.
fn items(lines: &[&'static str]) -> Vec<Item> {
    let column = lines.iter().filter_map(|line| second_column(line)).min().unwrap_or(usize::MAX);
    let mut items: Vec<Item> = Vec::new();
    for line in lines {
        let (term, text) = if line.len() > column && line.is_char_boundary(column) && line[..column].ends_with(' ') {
            line.split_at(column)
        } else {
            (*line, "")
        };
        match items.last_mut() {
            Some(item) if term.trim().is_empty() => item.text = format!("{} {}", item.text, text.trim()),
            _ => items.push(Item { term: term.trim(), text: text.trim().to_owned() }),
        }
    }
    items
}

fn second_column(line: &str) -> Option<usize> {
    let indent = line.len() - line.trim_start().len();
    let gap = indent + line[indent..].find("  ")?;
    Some(gap + line[gap..].len() - line[gap..].trim_start().len())
}

#[cfg(test)]
mod tests {
    use super::*;

    const TEXT: &str = "\
tool sub: does a thing

Usage: tool sub [OPTIONS] FILE
       tool sub --all

A paragraph
of two lines.

Options:
  --one N     the first (default 1),
              and more of it
  --force     no value

Exit status:
   0       done
   1 to 20 refused

Example:
  tool sub --one 1 file
";

    #[test]
    fn a_text_has_its_parts() {
        let help = Help::of(TEXT);
        assert_eq!((help.name, help.summary), ("tool sub", "does a thing"));
        assert_eq!(help.usage, ["tool sub [OPTIONS] FILE", "tool sub --all"]);
        assert!(matches!(&help.parts[0], Part::Paragraph(text) if text == "A paragraph of two lines."));
        let item = |term, text: &str| Item { term, text: text.to_owned() };
        let options = [item("--one N", "the first (default 1), and more of it"), item("--force", "no value")];
        assert!(help.items("Options").eq(&options));
        assert!(help.items("Exit status").eq(&[item("0", "done"), item("1 to 20", "refused")]));
        assert!(matches!(&help.parts[3], Part::Example(lines) if *lines == ["tool sub --one 1 file"]));
    }
}
