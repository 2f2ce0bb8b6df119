//! As much of JSON as it takes to read what the tool and qemu-img print. A text that is none gives nothing.

#[derive(Debug, PartialEq)]
pub enum Json {
    Null,
    Bool(bool),
    /// Whole numbers only.
    Number(u64),
    Text(String),
    List(Vec<Json>),
    Object(Vec<(String, Json)>),
}

impl Json {
    /// The value that the whole text is.
    pub fn of(text: &str) -> Option<Json> {
        let mut rest = text;
        let value = value(&mut rest)?;
        rest.trim_start().is_empty().then_some(value)
    }

    /// What an object has under this key.
    pub fn get(&self, key: &str) -> Option<&Json> {
        match self {
            Json::Object(members) => members.iter().find(|(name, _)| name == key).map(|(_, value)| value),
            _ => None,
        }
    }

    pub fn list(&self) -> Option<&[Json]> {
        match self {
            Json::List(values) => Some(values),
            _ => None,
        }
    }

    pub fn number(&self) -> Option<u64> {
        match self {
            Json::Number(number) => Some(*number),
            _ => None,
        }
    }

    pub fn bool(&self) -> Option<bool> {
        match self {
            Json::Bool(bool) => Some(*bool),
            _ => None,
        }
    }
}

/// Takes the word, after spaces, off the rest of a text.
fn take(rest: &mut &str, word: &str) -> Option<()> {
    *rest = rest.trim_start().strip_prefix(word)?;
    Some(())
}

fn value(rest: &mut &str) -> Option<Json> {
    match rest.trim_start().chars().next()? {
        '{' => between(rest, ["{", "}"], |rest| {
            let key = text(rest)?;
            take(rest, ":")?;
            Some((key, value(rest)?))
        })
        .map(Json::Object),
        '[' => between(rest, ["[", "]"], value).map(Json::List),
        '"' => text(rest).map(Json::Text),
        't' => take(rest, "true").map(|()| Json::Bool(true)),
        'f' => take(rest, "false").map(|()| Json::Bool(false)),
        'n' => take(rest, "null").map(|()| Json::Null),
        _ => number(rest).map(Json::Number),
    }
}

/// Values with commas between them, and brackets around all.
fn between<T>(rest: &mut &str, [open, close]: [&str; 2], one: impl Fn(&mut &str) -> Option<T>) -> Option<Vec<T>> {
    take(rest, open)?;
    let mut all = Vec::new();
    if take(rest, close).is_some() {
        return Some(all);
    }
    loop {
        all.push(one(rest)?);
        if take(rest, ",").is_none() {
            return take(rest, close).map(|()| all);
        }
    }
}

/// A text without escapes.
fn text(rest: &mut &str) -> Option<String> {
    take(rest, "\"")?;
    let (text, after) = rest.split_once('"')?;
    *rest = after;
    (!text.contains('\\')).then(|| text.to_owned())
}

fn number(rest: &mut &str) -> Option<u64> {
    let from = rest.trim_start();
    let (digits, after) = from.split_at(from.find(|c: char| !c.is_ascii_digit()).unwrap_or(from.len()));
    *rest = after;
    digits.parse().ok()
}

#[cfg(test)]
mod tests {
    use super::*;

    #[test]
    fn values() {
        let read =
            Json::of(" {\"a\": [1, true ,false],\n\"b\":{}, \"c\": [ ], \"d\":\"x y\",\"e\":null}\n").expect("JSON");
        assert_eq!(
            read.get("a").and_then(Json::list),
            Some(&[Json::Number(1), Json::Bool(true), Json::Bool(false)][..])
        );
        assert_eq!(read.get("b"), Some(&Json::Object(vec![])));
        assert_eq!(read.get("c"), Some(&Json::List(vec![])));
        assert_eq!(read.get("d"), Some(&Json::Text("x y".into())));
        assert_eq!(read.get("e"), Some(&Json::Null));
        assert_eq!(read.get("f"), None);
    }

    #[test]
    fn what_is_none() {
        for text in ["", "{", "[1,]", "[1 2]", "{\"a\" 1}", "{a:1}", "{} {}", "[1.5]", "-1", "tru", "\"open", "[,1]"] {
            assert_eq!(Json::of(text), None, "{text}");
        }
    }
}
