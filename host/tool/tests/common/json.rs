//! A reader of JSON, as RFC 8259 has it, for what the program writes.

use std::str::Chars;

#[derive(Clone, Debug, PartialEq)]
pub enum Json {
    Null,
    Bool(bool),
    Number(u64),
    Text(String),
    List(Vec<Json>),
    Object(Vec<(String, Json)>),
}

/// One object on one line, and nothing else.
#[track_caller]
pub fn line(text: &str) -> Json {
    let line = text.strip_suffix('\n').expect("a whole line");
    assert!(!line.contains('\n'), "{line}");
    let mut rest = line.chars();
    let value = value(&mut rest);
    assert_eq!(rest.as_str(), "", "something follows the object");
    assert!(matches!(value, Json::Object(_)), "{line}");
    value
}

impl Json {
    /// The field of an object, or the item of a list, by a path like `boards 0 steps`.
    #[track_caller]
    pub fn at(&self, path: &str) -> &Json {
        let found = self.find(path);
        found.unwrap_or_else(|| panic!("there is no {path} in {self:?}"))
    }

    /// As [`at`](Self::at), if it is there.
    pub fn find(&self, path: &str) -> Option<&Json> {
        path.split_whitespace()
            .try_fold(self, |value, step| match value {
                Json::Object(fields) => {
                    let mut named = fields.iter().filter(|(name, _)| name == step);
                    let (_, field) = named.next()?;
                    assert!(named.next().is_none(), "{step} is there twice");
                    Some(field)
                }
                Json::List(items) => items.get(step.parse::<usize>().ok()?),
                _ => None,
            })
    }

    #[track_caller]
    pub fn text(&self, path: &str) -> &str {
        match self.at(path) {
            Json::Text(text) => text,
            other => panic!("{path} is {other:?}"),
        }
    }

    #[track_caller]
    pub fn number(&self, path: &str) -> u64 {
        match self.at(path) {
            Json::Number(number) => *number,
            other => panic!("{path} is {other:?}"),
        }
    }

    #[track_caller]
    pub fn list(&self, path: &str) -> &[Json] {
        match self.at(path) {
            Json::List(items) => items,
            other => panic!("{path} is {other:?}"),
        }
    }

    #[track_caller]
    pub fn is(&self, path: &str) -> bool {
        match self.at(path) {
            Json::Bool(value) => *value,
            other => panic!("{path} is {other:?}"),
        }
    }

    /// The names of an object's fields.
    pub fn names(&self) -> Vec<&str> {
        match self {
            Json::Object(fields) => fields.iter().map(|(name, _)| &name[..]).collect(),
            other => panic!("no object: {other:?}"),
        }
    }
}

fn value(rest: &mut Chars) -> Json {
    match rest.clone().next().expect("a value") {
        '"' => Json::Text(text(rest)),
        '[' => Json::List(listed(rest, '[', ']', value)),
        '{' => Json::Object(listed(rest, '{', '}', |rest| {
            let name = text(rest);
            take(rest, ":");
            (name, value(rest))
        })),
        '0'..='9' => number(rest),
        _ => word(rest),
    }
}

fn take(rest: &mut Chars, wanted: &str) {
    let after = rest.as_str().strip_prefix(wanted);
    *rest = after
        .unwrap_or_else(|| panic!("no {wanted} before {}", rest.as_str()))
        .chars();
}

fn listed<T>(rest: &mut Chars, open: char, close: char, item: impl Fn(&mut Chars) -> T) -> Vec<T> {
    let mut items = Vec::new();
    take(rest, &open.to_string());
    while !rest.as_str().starts_with(close) {
        if !items.is_empty() {
            take(rest, ",");
        }
        items.push(item(rest));
    }
    take(rest, &close.to_string());
    items
}

fn number(rest: &mut Chars) -> Json {
    let all = rest.as_str();
    let end = all.find(|letter: char| !letter.is_ascii_digit());
    let digits = &all[..end.unwrap_or(all.len())];
    assert!(digits == "0" || !digits.starts_with('0'), "{digits}");
    take(rest, digits);
    Json::Number(digits.parse().unwrap())
}

fn word(rest: &mut Chars) -> Json {
    for (word, value) in [
        ("null", Json::Null),
        ("true", Json::Bool(true)),
        ("false", Json::Bool(false)),
    ] {
        if rest.as_str().starts_with(word) {
            take(rest, word);
            return value;
        }
    }
    panic!("no value: {}", rest.as_str())
}

fn text(rest: &mut Chars) -> String {
    let mut text = String::new();
    take(rest, "\"");
    loop {
        match rest.next().expect("the end of a text") {
            '"' => return text,
            '\\' => text.push(escaped(rest)),
            letter if letter < ' ' => panic!("{letter:?} stands in a text"),
            letter => text.push(letter),
        }
    }
}

fn escaped(rest: &mut Chars) -> char {
    match rest.next().expect("an escaped letter") {
        letter @ ('"' | '\\' | '/') => letter,
        'n' => '\n',
        'r' => '\r',
        't' => '\t',
        'u' => {
            let digits: String = rest.take(4).collect();
            assert_eq!(digits.len(), 4);
            let number = u32::from_str_radix(&digits, 16).unwrap();
            char::from_u32(number).expect("no half of a pair")
        }
        letter => panic!("\\{letter} means nothing"),
    }
}
