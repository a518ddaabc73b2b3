//! A sheet with its bookings tidied. Words with a stored list become words with a booking list of desk 0. A text stays
//! as it is, but for the bookings that go: those that repeat one of the same desk.

use super::form::{form, Form};
use super::load::{compiled, long_enough, trouble};
use super::told::Told;
use super::trouble::{Trouble, Why};
use super::{explain, roles};
use crate::refusal::Refusal;
use crate::sheet::{self, Files};
use crate::typing::{bookings, tidying, Setting};
use std::collections::BTreeSet;

/// A sheet whose bookings are tidied.
#[derive(Clone, PartialEq, Eq, Debug)]
pub struct Tidied {
    /// Its bytes, text or words as before.
    pub bytes: Vec<u8>,
    /// How many bookings it had.
    pub bookings: usize,
    /// How many of them were dropped.
    pub dropped: usize,
}

/// Tidies the bookings of the sheet in the bytes of a file, or tells why there is no sheet.
pub fn tidy(file: &str, bytes: &[u8]) -> Result<Tidied, Trouble> {
    let form = form(bytes);
    let tidied = long_enough(bytes).and_then(|()| match form {
        Form::Text => of_text(bytes),
        Form::Words => of_words(bytes).map_err(Why::refused),
    });
    tidied.map_err(|why| trouble(file, form, why))
}

fn of_words(bytes: &[u8]) -> Result<Tidied, Told> {
    let mut files = sheet::split(bytes).map_err(|_| roles::tell_input(bytes))?;
    let stored = Setting::read(&files.template, &files.script)
        .and_then(|setting| Ok((bookings::read_stored(&setting, &files.bookings)?, setting)));
    let (stored, setting) = stored.map_err(|refusal| roles::tell_stored(&files, refusal))?;
    let tidied = tidying::tidied(&setting, &stored);
    files.bookings = bookings::words(&tidied);
    Ok(Tidied {
        bytes: files.bytes(),
        bookings: stored.len(),
        dropped: stored.len() - tidied.len(),
    })
}

fn of_text(bytes: &[u8]) -> Result<Tidied, Why> {
    let (text, compiled) = compiled(bytes)?;
    let told = |refusal| Why::refused(explain::tell(&compiled, refusal));
    let files = sheet::split(&compiled.files().bytes()).map_err(told)?;
    let first = firsts(&files).map_err(told)?;
    let repeats = text.bookings.iter().zip(first).filter(|(_, first)| !first);
    let lines: BTreeSet<usize> = repeats.map(|(booking, _)| booking.card.spot.line).collect();
    Ok(Tidied {
        bytes: without(bytes, &lines),
        bookings: text.bookings.len(),
        dropped: lines.len(),
    })
}

/// For each booking, whether it is its desk's first of the pair.
fn firsts(files: &Files) -> Result<Vec<bool>, Refusal> {
    let setting = Setting::read(&files.template, &files.script)?;
    let booked = bookings::read_with_repeats(&setting, &files.bookings)?;
    Ok(booked.iter().map(bookings::firsts(&setting)).collect())
}

/// A text without the bookings on these lines, each of which has a line to itself. A comment behind one stays.
fn without(text: &[u8], dropped: &BTreeSet<usize>) -> Vec<u8> {
    let lines = text.split_inclusive(|byte| *byte == b'\n').zip(1..);
    let left = lines.map(|(line, number)| match dropped.contains(&number) {
        false => line,
        true => {
            let comment = line.iter().position(|byte| *byte == b'#');
            &line[comment.unwrap_or(line.len())..]
        }
    });
    left.collect::<Vec<_>>().concat()
}
