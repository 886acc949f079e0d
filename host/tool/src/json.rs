//! JSON, as far as it is written here: RFC 8259, on one line.

use std::fmt;

#[derive(Clone, Debug, PartialEq, Eq)]
pub enum Value {
    Null,
    Bool(bool),
    Number(usize),
    Text(String),
    List(Vec<Value>),
    Object(Fields),
}

/// The fields of an object, in the order in which they are written.
pub type Fields = Vec<(&'static str, Value)>;

impl From<bool> for Value {
    fn from(value: bool) -> Value {
        Value::Bool(value)
    }
}

impl From<usize> for Value {
    fn from(number: usize) -> Value {
        Value::Number(number)
    }
}

impl From<&str> for Value {
    fn from(text: &str) -> Value {
        Value::Text(text.to_string())
    }
}

impl From<String> for Value {
    fn from(text: String) -> Value {
        Value::Text(text)
    }
}

impl fmt::Display for Value {
    fn fmt(&self, f: &mut fmt::Formatter<'_>) -> fmt::Result {
        match self {
            Value::Null => write!(f, "null"),
            Value::Bool(value) => write!(f, "{value}"),
            Value::Number(number) => write!(f, "{number}"),
            Value::Text(text) => quoted(f, text),
            Value::List(values) => {
                let value = |f: &mut fmt::Formatter<'_>, value: &Value| write!(f, "{value}");
                listed(f, ['[', ']'], values, value)
            }
            Value::Object(fields) => listed(f, ['{', '}'], fields, |f, (name, value)| {
                quoted(f, name)?;
                write!(f, ":{value}")
            }),
        }
    }
}

fn listed<T>(
    f: &mut fmt::Formatter<'_>,
    [open, close]: [char; 2],
    items: &[T],
    write_one: impl Fn(&mut fmt::Formatter<'_>, &T) -> fmt::Result,
) -> fmt::Result {
    write!(f, "{open}")?;
    for (place, item) in items.iter().enumerate() {
        if place > 0 {
            write!(f, ",")?;
        }
        write_one(f, item)?;
    }
    write!(f, "{close}")
}

fn quoted(f: &mut fmt::Formatter<'_>, text: &str) -> fmt::Result {
    write!(f, "\"")?;
    for letter in text.chars() {
        match letter {
            '"' | '\\' => write!(f, "\\{letter}")?,
            '\0'..='\u{1f}' => write!(f, "\\u{:04x}", u32::from(letter))?,
            _ => write!(f, "{letter}")?,
        }
    }
    write!(f, "\"")
}

#[cfg(test)]
mod tests {
    use super::*;

    #[test]
    fn every_kind_of_value() {
        let value = Value::Object(vec![
            ("none", Value::Null),
            ("yes", true.into()),
            ("count", 2048.into()),
            (
                "list",
                Value::List(vec!["a".into(), Value::List(vec![]), 0.into()]),
            ),
            ("object", Value::Object(vec![])),
        ]);
        assert_eq!(
            value.to_string(),
            r#"{"none":null,"yes":true,"count":2048,"list":["a",[],0],"object":{}}"#
        );
    }

    #[test]
    fn letters_that_would_end_a_text() {
        let text = "a\"b\\c\n\u{0}\u{1f}\u{7f}é\u{1F6A1}";
        assert_eq!(
            Value::from(text).to_string(),
            "\"a\\\"b\\\\c\\u000a\\u0000\\u001f\u{7f}é\u{1F6A1}\""
        );
    }
}
