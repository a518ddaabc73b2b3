//! Cases: what operations are asked, and what is owed for it. A case is a tag, which tells the operation, and the
//! sections that the operation takes; docs/FORMAT.md has the form, under *Conformance cases*. All cases go into one
//! file, and what is owed into another: a line for each, or the text of a sheet.
//!
//! | here       | what                                                            |
//! |------------|-----------------------------------------------------------------|
//! | `worked`   | cases that are worked out by hand                               |
//! | `made`     | fixed and random cases, with the answers of this implementation |
//! | `programs` | cases of the grid judge and of the list tidier                  |

pub mod made;
pub mod programs;
pub mod worked;

use crate::generate::pairs;
use crate::programs::MOST_JUDGED;
use crate::sheet::Files;
use std::fs;
use std::path::Path;

/// The operation that a case asks; its number is the case's tag.
#[derive(Clone, Copy, PartialEq, Eq, PartialOrd, Ord, Debug)]
pub enum Tag {
    /// *Read a template*: a template.
    Template = 1,
    /// *Fit counts*: a template, a shape, counts.
    Fit = 2,
    /// *Read a script*: a template, a script.
    Script = 3,
    /// *Links of a card*: a template, a script, a card.
    Links = 4,
    /// *The sheet printer*: the bytes of an input.
    Sheet = 5,
    /// *Judge a grid*: a template, a script, bookings, a desk, the bytes of a grid.
    Judge = 6,
    /// *Tidy bookings*: a template, a script, a stored list, how many words the buffer has.
    Tidy = 7,
    /// *The grid judge*: the bytes of an input.
    GridJudge = 8,
    /// *The list tidier*: the bytes of an input.
    ListTidier = 9,
}

/// The most bytes of a section: one more than the longest input of the sheet printer.
pub const MOST_BYTES: usize = 65_537;

impl Tag {
    /// The most bytes of a section: one more than the longest input.
    fn most(self) -> usize {
        match self {
            Tag::GridJudge => MOST_JUDGED + 1,
            _ => MOST_BYTES,
        }
    }
}

/// What an operation is asked, and a name that says how it was made.
#[derive(Clone, PartialEq, Eq, Debug)]
pub struct Question {
    /// How it was made.
    pub name: String,
    /// The operation.
    pub tag: Tag,
    /// The bytes of its sections; words have two bytes each, low byte first.
    pub sections: Vec<Vec<u8>>,
}

/// A question and what is owed for it: a line, or the text of a sheet, with the end of its last line.
pub type Case = (Question, String);

impl Question {
    /// The tag, and each section after its length in four bytes. An error is a section that is too long.
    pub fn bytes(&self) -> Result<Vec<u8>, String> {
        let mut bytes = (self.tag as u16).to_le_bytes().to_vec();
        for section in &self.sections {
            if section.len() > self.tag.most() {
                return Err(format!("the case {} is too long", self.name));
            }
            bytes.extend((section.len() as u32).to_le_bytes());
            bytes.extend(section);
        }
        Ok(bytes)
    }

    /// How many bytes its sections have together.
    pub fn size(&self) -> usize {
        self.sections.iter().map(Vec::len).sum()
    }
}

/// The bytes of words.
pub fn section(words: &[u16]) -> Vec<u8> {
    words.iter().flat_map(|word| word.to_le_bytes()).collect()
}

/// The sections of three files.
fn sections(files: &Files) -> Vec<Vec<u8>> {
    [&files.template, &files.script, &files.bookings]
        .map(|file| section(file))
        .to_vec()
}

/// The stored cases, in the order of their tags: those that are worked out by hand, and fixed and random ones.
pub fn stored() -> Result<Vec<Case>, String> {
    let seed = 7;
    let mut cases = [
        worked::cases()?,
        made::fits(seed, 793),
        made::sheets(seed, 1120),
        made::grids(seed, 1340),
        made::lists(seed, 660),
    ]
    .concat();
    cases.sort_by_key(|(question, _)| question.tag);
    Ok(cases)
}

/// Cases of a seed: so many of each operation that has random ones, of which long ones are left out.
pub fn generated(seed: u64, count: usize) -> Vec<Case> {
    [
        made::fits(seed, count),
        made::sheets(seed, count),
        made::grids(seed, count),
        made::lists(seed, count),
    ]
    .concat()
}

/// Writes the questions of cases into one file, and what is owed for them into another.
pub fn write(questions: &Path, answers: &Path, cases: &[Case]) -> Result<(), String> {
    let (mut input, mut text) = (Vec::new(), String::new());
    for (question, answer) in cases {
        input.extend(question.bytes()?);
        text += answer;
    }
    write_file(questions, &input)?;
    write_file(answers, text.as_bytes())
}

/// Writes so many pairs of sheets on which one desk books the same, as questions for the sheet printer.
pub fn desk_pairs(questions: &Path, seed: u64, count: usize) -> Result<(), String> {
    let mut bytes = Vec::new();
    for files in pairs::pairs(seed, count).flat_map(|pair| pair.sheets) {
        bytes.extend(made::sheet("pair".to_string(), files.bytes()).bytes()?);
    }
    write_file(questions, &bytes)
}

fn write_file(path: &Path, bytes: &[u8]) -> Result<(), String> {
    fs::write(path, bytes).map_err(|error| format!("the file {} can't be written: {error}", path.display()))
}
