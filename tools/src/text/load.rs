//! Loads a sheet from the bytes of a file, be they text or words.

use super::check::Sheet;
use super::compile::{compile, Compiled};
use super::form::{form, Form, TOLD_BY};
use super::listed::Listed;
use super::parse::parse;
use super::told::Told;
use super::trouble::{Trouble, Why};
use super::{explain, roles, write, Fault, Spot, Text};
use crate::refusal::Refusal;
use crate::sheet::{self, Files};
use crate::typing::bookings::Booking;
use crate::typing::{self, Setting, Typings};

/// The sheet in the bytes of a file, run; or why there is none.
pub fn load_sheet(file: &str, bytes: &[u8]) -> Result<Sheet, Trouble> {
    let form = form(bytes);
    let sheet = long_enough(bytes).and_then(|()| match form {
        Form::Text => of_text(bytes),
        Form::Words => of_words(bytes).map_err(Why::refused),
    });
    sheet.map_err(|why| trouble(file, form, why))
}

/// The same for bytes that are meant as a text, whatever they look like.
pub fn load_text(file: &str, bytes: &[u8]) -> Result<Sheet, Trouble> {
    of_text(bytes).map_err(|why| trouble(file, Form::Text, why))
}

/// The printer's input for the bytes of a file, which may be refused.
pub fn load_input(file: &str, bytes: &[u8]) -> Result<Vec<u8>, Trouble> {
    match form(bytes) {
        Form::Words => Ok(bytes.to_vec()),
        Form::Text => match compiled(bytes) {
            Ok((_, compiled)) => Ok(compiled.files().bytes()),
            Err(why) => Err(trouble(file, Form::Text, why)),
        },
    }
}

/// Why a file isn't a sheet.
pub fn trouble(file: &str, form: Form, why: Why) -> Trouble {
    let file = file.to_string();
    Trouble { file, form, why }
}

/// Whether there are as many bytes as it takes to tell text from words. No sheet has fewer.
pub fn long_enough(bytes: &[u8]) -> Result<(), Why> {
    match bytes.len() {
        short if short < TOLD_BY => Err(Why::Short(short)),
        _ => Ok(()),
    }
}

/// A text and its words, which may be refused.
pub fn compiled(bytes: &[u8]) -> Result<(Text, Compiled), Why> {
    let source = decode(bytes).map_err(|fault| Why::Faults(Listed::one(fault)))?;
    let parsed = parse(source);
    match compile(&parsed) {
        Ok(compiled) => Ok((parsed.text, compiled)),
        Err(faults) => Err(Why::Faults(faults)),
    }
}

/// The characters of a text.
fn decode(bytes: &[u8]) -> Result<&str, Fault> {
    std::str::from_utf8(bytes).map_err(|error| {
        let before = String::from_utf8_lossy(&bytes[..error.valid_up_to()]);
        let before = before.trim_start_matches('\u{feff}');
        let line = before.matches('\n').count() + 1;
        let column = before.chars().rev().take_while(|sign| *sign != '\n').count() + 1;
        Fault::at(Spot { line, column }, "this isn't UTF-8; save the text as UTF-8")
    })
}

/// The sheet of a text.
fn of_text(bytes: &[u8]) -> Result<Sheet, Why> {
    let (text, compiled) = compiled(bytes)?;
    let told = |refusal| Why::Refused(explain::tell_all(&compiled, refusal));
    let files = sheet::split(&compiled.files().bytes()).map_err(told)?;
    let read = Read::of(&files).map_err(told)?;
    Ok(read.sheet(text, compiled, Form::Text))
}

/// The sheet of words. Its text has numbers for names; the text's lines and columns aren't those of any file.
fn of_words(bytes: &[u8]) -> Result<Sheet, Told> {
    let files = sheet::split(bytes).map_err(|_| roles::tell_input(bytes))?;
    let read = Read::of(&files).map_err(|refusal| roles::tell(&files, refusal))?;
    let source = write::numbered(&read.setting, &read.booked);
    let parsed = parse(&source);
    let compiled = compile(&parsed).expect("what is written out is read again");
    Ok(read.sheet(parsed.text, compiled, Form::Words))
}

/// Files that were read and run.
struct Read {
    setting: Setting,
    booked: Vec<Booking>,
    typings: Typings,
}

impl Read {
    fn of(files: &Files) -> Result<Read, Refusal> {
        let (setting, booked) = typing::read(&files.template, &files.script, &files.bookings)?;
        let typings = typing::typings(&files.template, &files.script, &files.bookings)?;
        Ok(Read {
            setting,
            booked,
            typings,
        })
    }

    fn sheet(self, text: Text, compiled: Compiled, form: Form) -> Sheet {
        Sheet {
            text,
            compiled,
            blank: self.setting.script.blank(),
            setting: self.setting,
            booked: self.booked,
            typings: self.typings,
            form,
        }
    }
}
