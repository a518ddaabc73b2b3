//! Writes JSON.

use std::fmt::{self, Display, Formatter, Write};

/// A JSON value.
#[derive(Clone, PartialEq, Eq, Debug)]
pub enum Json {
    /// `null`.
    Null,
    /// A number.
    Number(u64),
    /// A string.
    Text(String),
    /// An array.
    List(Vec<Json>),
    /// An object; its fields are written in this order.
    Fields(Vec<(&'static str, Json)>),
    /// An object whose fields have names that a sheet gives.
    Named(Vec<(String, Json)>),
}

impl Json {
    /// A string.
    pub fn text(text: impl Into<String>) -> Json {
        Json::Text(text.into())
    }

    /// A number that counts something.
    pub fn count(count: usize) -> Json {
        Json::Number(count as u64)
    }

    /// The value, or null.
    pub fn maybe<T>(value: Option<T>, json: impl FnOnce(T) -> Json) -> Json {
        value.map_or(Json::Null, json)
    }

    /// An array of one value for each of these.
    pub fn list<T>(values: impl IntoIterator<Item = T>, json: impl FnMut(T) -> Json) -> Json {
        Json::List(values.into_iter().map(json).collect())
    }
}

impl Display for Json {
    fn fmt(&self, out: &mut Formatter<'_>) -> fmt::Result {
        match self {
            Json::Null => out.write_str("null"),
            Json::Number(number) => write!(out, "{number}"),
            Json::Text(text) => quote(out, text),
            Json::List(values) => {
                out.write_char('[')?;
                for (index, value) in values.iter().enumerate() {
                    write!(out, "{}{value}", comma(index))?;
                }
                out.write_char(']')
            }
            Json::Fields(fields) => object(out, fields.iter().map(|(name, value)| (*name, value))),
            Json::Named(fields) => object(out, fields.iter().map(|(name, value)| (name.as_str(), value))),
        }
    }
}

/// An object with these fields.
fn object<'a>(out: &mut Formatter<'_>, fields: impl Iterator<Item = (&'a str, &'a Json)>) -> fmt::Result {
    out.write_char('{')?;
    for (index, (name, value)) in fields.enumerate() {
        out.write_str(comma(index))?;
        quote(out, name)?;
        write!(out, ":{value}")?;
    }
    out.write_char('}')
}

/// What stands before a value of a list.
fn comma(index: usize) -> &'static str {
    if index == 0 {
        ""
    } else {
        ","
    }
}

/// A string: quotation marks, backslashes and control characters can't stand in it as they are. The two line
/// separators are written out as well, because programs that take JSON for JavaScript trip over them.
fn quote(out: &mut Formatter<'_>, text: &str) -> fmt::Result {
    out.write_char('"')?;
    for character in text.chars() {
        match character {
            '"' | '\\' => write!(out, "\\{character}")?,
            '\n' => out.write_str("\\n")?,
            '\t' => out.write_str("\\t")?,
            '\0'..='\u{1f}' | '\u{7f}' | '\u{2028}' | '\u{2029}' => {
                write!(out, "\\u{:04x}", u32::from(character))?;
            }
            other => out.write_char(other)?,
        }
    }
    out.write_char('"')
}
