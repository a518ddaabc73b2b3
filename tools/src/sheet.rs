//! *The sheet printer*: bytes in, text out. The input holds template, script and bookings, each after its count
//! of words. Refusal 60 comes before all others.

use crate::refusal::Refusal;
use crate::typing::{self, Smallest, Typings};
use std::fmt::Write;

/// The most bytes of an input.
pub const MOST_BYTES: usize = 65536;

/// The three files of one input, as words.
#[derive(Clone, PartialEq, Eq, Debug)]
pub struct Files {
    /// The template's words.
    pub template: Vec<u16>,
    /// The script's words.
    pub script: Vec<u16>,
    /// The bookings' words.
    pub bookings: Vec<u16>,
}

impl Files {
    /// The input that holds these files.
    pub fn bytes(&self) -> Vec<u8> {
        let mut bytes = Vec::new();
        for section in [&self.template, &self.script, &self.bookings] {
            bytes.extend((section.len() as u16).to_le_bytes());
            bytes.extend(section.iter().flat_map(|word| word.to_le_bytes()));
        }
        bytes
    }
}

/// The text of the sheet: what the printer writes for this input.
pub fn print(input: &[u8]) -> String {
    match typings(input) {
        Ok(typings) => sheet_text(&typings),
        Err(refusal) => format!("refused {} {}\n", refusal.number, refusal.place),
    }
}

/// The typings of the sheet in this input, or the first refusal.
pub fn typings(input: &[u8]) -> Result<Typings, Refusal> {
    let files = split(input)?;
    typing::typings(&files.template, &files.script, &files.bookings)
}

/// Cuts the input into its three files; 60 if it ends early, goes on, or is too long.
pub fn split(input: &[u8]) -> Result<Files, Refusal> {
    if input.len() > MOST_BYTES || input.len() % 2 != 0 {
        return Err(Refusal::at(60, 0));
    }
    let words: Vec<u16> = input
        .chunks_exact(2)
        .map(|two| u16::from_le_bytes([two[0], two[1]]))
        .collect();
    let (template, rest) = section(&words)?;
    let (script, rest) = section(rest)?;
    let (bookings, rest) = section(rest)?;
    if !rest.is_empty() {
        return Err(Refusal::at(60, 0));
    }
    Ok(Files {
        template: template.to_vec(),
        script: script.to_vec(),
        bookings: bookings.to_vec(),
    })
}

/// A section after its count, and what comes after it.
fn section(words: &[u16]) -> Result<(&[u16], &[u16]), Refusal> {
    let ends_early = Refusal::at(60, 0);
    let (count, rest) = words.split_first().ok_or(ends_early)?;
    rest.split_at_checked(usize::from(*count)).ok_or(ends_early)
}

/// The lines of a sheet that isn't refused: the largest typing, and then each desk's smallest.
fn sheet_text(typings: &Typings) -> String {
    let (largest, grid) = &typings.largest;
    let mut text = format!("largest {} {} {}\n", largest.rounds, largest.struck, largest.bare);
    text += &card_lines(grid, typings.shapes);
    for (answer, grid) in &typings.smallest {
        match answer {
            Smallest::Pairs(pairs) => {
                text += &format!("smallest {pairs}\n");
                text += &card_lines(grid, typings.shapes);
            }
            Smallest::NotMet(card, shape) => text += &format!("smallest no {} {}\n", card.0, shape.0),
        }
    }
    text
}

/// A line per card: its shapes ascending, a space before each.
pub fn card_lines(grid: &[u8], shapes: u16) -> String {
    let mut text = String::new();
    for (card, row) in grid.chunks(usize::from(shapes)).enumerate() {
        let _ = write!(text, "card {card}:");
        for (shape, _) in row.iter().enumerate().filter(|(_, byte)| **byte == 1) {
            let _ = write!(text, " {shape}");
        }
        text.push('\n');
    }
    text
}
