//! Values as JSON, for `--json`.

use std::fmt::{Display, Formatter, Result};

#[derive(Clone, Debug, PartialEq, Eq)]
pub enum Json {
    Null,
    Bool(bool),
    Number(i64),
    Text(String),
    List(Vec<Json>),
    Object(Vec<(&'static str, Json)>),
    /// An object whose names aren't known beforehand.
    Map(Vec<(String, Json)>),
}

impl Json {
    pub fn text(text: impl Into<String>) -> Json {
        Json::Text(text.into())
    }

    pub fn number(number: impl TryInto<i64>) -> Json {
        number.try_into().map_or(Json::Null, Json::Number)
    }

    pub fn list<T>(values: impl IntoIterator<Item = T>, of: impl Fn(T) -> Json) -> Json {
        Json::List(values.into_iter().map(of).collect())
    }

    /// The value, or null.
    pub fn maybe<T>(value: Option<T>, of: impl Fn(T) -> Json) -> Json {
        value.map_or(Json::Null, of)
    }

    /// As a line of output.
    pub fn line(&self) -> Vec<u8> {
        format!("{self}\n").into_bytes()
    }
}

impl Display for Json {
    fn fmt(&self, out: &mut Formatter) -> Result {
        match self {
            Json::Null => write!(out, "null"),
            Json::Bool(value) => write!(out, "{value}"),
            Json::Number(number) => write!(out, "{number}"),
            Json::Text(text) => quoted(text, out),
            Json::List(values) => {
                separated(out, ['[', ']'], values, |value, out| write!(out, "{value}"))
            }
            Json::Object(fields) => separated(out, ['{', '}'], fields, |(name, value), out| {
                quoted(name, out)?;
                write!(out, ":{value}")
            }),
            Json::Map(fields) => separated(out, ['{', '}'], fields, |(name, value), out| {
                quoted(name, out)?;
                write!(out, ":{value}")
            }),
        }
    }
}

fn separated<T>(
    out: &mut Formatter,
    [open, close]: [char; 2],
    values: &[T],
    one: impl Fn(&T, &mut Formatter) -> Result,
) -> Result {
    write!(out, "{open}")?;
    for (k, value) in values.iter().enumerate() {
        if k > 0 {
            write!(out, ",")?;
        }
        one(value, out)?;
    }
    write!(out, "{close}")
}

fn quoted(text: &str, out: &mut Formatter) -> Result {
    write!(out, "\"")?;
    for letter in text.chars() {
        match letter {
            '"' => write!(out, "\\\"")?,
            '\\' => write!(out, "\\\\")?,
            '\n' => write!(out, "\\n")?,
            control if control < ' ' => write!(out, "\\u{:04x}", u32::from(control))?,
            other => write!(out, "{other}")?,
        }
    }
    write!(out, "\"")
}
