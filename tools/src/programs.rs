//! *The grid judge* and *The list tidier*: bytes in, a line or a list out. The judge's input is the printer's, then a
//! desk, which is one word, and a grid after its count of bytes; the tidier's is the printer's with a stored list.

use crate::refusal::Refusal;
use crate::sheet::{split, Files};
use crate::typing::judge::{self, judge};
use crate::typing::tidying::tidy;

/// The most bytes of the grid judge's input.
pub const MOST_JUDGED: usize = 131072;

/// What the grid judge is asked: files, a desk and a grid.
pub struct Question {
    /// Template, script and bookings.
    pub files: Files,
    /// Whose bookings the grid has to hold.
    pub desk: u16,
    /// The grid.
    pub grid: Vec<u8>,
}

impl Question {
    /// The grid judge's input that holds them; none if the grid has more bytes than a word can count.
    pub fn bytes(&self) -> Option<Vec<u8>> {
        let count = u16::try_from(self.grid.len()).ok()?;
        let mut bytes = self.files.bytes();
        bytes.extend(self.desk.to_le_bytes());
        bytes.extend(count.to_le_bytes());
        bytes.extend(&self.grid);
        Some(bytes)
    }
}

/// The line that the grid judge writes for its input.
pub fn judge_line(input: &[u8]) -> String {
    let judged = question(input).and_then(|asked| {
        let Files {
            template,
            script,
            bookings,
        } = &asked.files;
        judge(template, script, bookings, asked.desk, &asked.grid)
    });
    judge::answer(judged) + "\n"
}

/// What an input of the grid judge holds; 60 if it ends early, goes on, or is too long.
pub fn question(input: &[u8]) -> Result<Question, Refusal> {
    if input.len() > MOST_JUDGED {
        return Err(Refusal::at(60, 0));
    }
    let (template, rest) = section(input)?;
    let (script, rest) = section(rest)?;
    let (bookings, rest) = section(rest)?;
    let (desk, rest) = word(rest)?;
    let (count, grid) = word(rest)?;
    if grid.len() != usize::from(count) {
        return Err(Refusal::at(60, 0));
    }
    Ok(Question {
        files: Files {
            template,
            script,
            bookings,
        },
        desk,
        grid: grid.to_vec(),
    })
}

/// The word that bytes start with, and what comes after it.
fn word(bytes: &[u8]) -> Result<(u16, &[u8]), Refusal> {
    let (first, rest) = bytes.split_first_chunk().ok_or(Refusal::at(60, 0))?;
    Ok((u16::from_le_bytes(*first), rest))
}

/// The words of a section after its count, and what comes after it.
fn section(bytes: &[u8]) -> Result<(Vec<u16>, &[u8]), Refusal> {
    let (count, mut rest) = word(bytes)?;
    let mut words = Vec::new();
    for _ in 0..count {
        let (next, after) = word(rest)?;
        words.push(next);
        rest = after;
    }
    Ok((words, rest))
}

/// What the list tidier writes for its input: the bytes of the tidied list, or the line of a refusal.
pub fn tidy_list(input: &[u8]) -> Vec<u8> {
    match tidied(input) {
        Ok(words) => words.iter().flat_map(|word| word.to_le_bytes()).collect(),
        Err(refusal) => format!("refused {} {}\n", refusal.number, refusal.place).into_bytes(),
    }
}

/// The words of the tidied list of an input, or the first refusal.
fn tidied(input: &[u8]) -> Result<Vec<u16>, Refusal> {
    let files = split(input)?;
    let count = files.bookings.first().copied().unwrap_or(0);
    let mut list = vec![0; 1 + 3 * usize::from(count)];
    let words = tidy(&files.template, &files.script, &files.bookings, &mut list)?;
    list.truncate(words);
    Ok(list)
}
