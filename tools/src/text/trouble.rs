//! Why a file isn't a sheet, told with the file's name and, for a text, the line and column of each fault.

use super::form::Form;
use super::listed::Listed;
use super::report::counted;
use super::told::Told;
use super::{Faults, Spot};
use std::fmt;

/// Why a file isn't a sheet.
#[derive(Clone, PartialEq, Eq, Debug)]
pub struct Trouble {
    /// The file's name.
    pub file: String,
    /// What it holds.
    pub form: Form,
    /// What is wrong.
    pub why: Why,
}

/// What is wrong with a file.
#[derive(Clone, PartialEq, Eq, Debug)]
pub enum Why {
    /// It has only so many bytes.
    Short(usize),
    /// The text says what no word can say.
    Faults(Faults),
    /// The words are refused. The operations answer the first of these.
    Refused(Listed<Told>),
}

impl Why {
    /// The words are refused.
    pub fn refused(told: Told) -> Why {
        Why::Refused(Listed::one(told))
    }
}

impl fmt::Display for Trouble {
    fn fmt(&self, out: &mut fmt::Formatter<'_>) -> fmt::Result {
        match &self.why {
            Why::Short(bytes) => write!(out, "{}: {}", self.file, too_short(*bytes)),
            Why::Faults(faults) => self.list(out, faults, "fault", |fault| {
                (Some(fault.spot), fault.message.clone())
            }),
            Why::Refused(refusals) => {
                self.list(out, refusals, "refusal", |told| (told.spot, told.to_string()))
            }
        }
    }
}

impl Trouble {
    /// A line or more for each of these things, and how many aren't told.
    fn list<T>(
        &self,
        out: &mut fmt::Formatter<'_>,
        listed: &Listed<T>,
        thing: &str,
        line: impl Fn(&T) -> (Option<Spot>, String),
    ) -> fmt::Result {
        for (number, entry) in listed.told.iter().enumerate() {
            let (spot, line) = line(entry);
            let before = if number == 0 { "" } else { "\n" };
            write!(out, "{before}{}: {line}", place(&self.file, spot))?;
        }
        match listed.more {
            0 => Ok(()),
            more => write!(
                out,
                "\n{}: and {}",
                self.file,
                counted(more, &format!("more {thing}"))
            ),
        }
    }
}

/// What is said about a file with so few bytes.
pub fn too_short(bytes: usize) -> String {
    match bytes {
        0 => "the file is empty".to_string(),
        _ => {
            let bytes = counted(bytes, "byte");
            format!("the file has only {bytes}; no sheet is that short, be it text or words")
        }
    }
}

/// A file, and a line and column of it if there is one.
pub fn place(file: &str, spot: Option<Spot>) -> String {
    match spot {
        Some(spot) => format!("{file}:{}:{}", spot.line, spot.column),
        None => file.to_string(),
    }
}
