//! A refusal told in words: what is wrong, at which word, what that word is for and where it stands.

use super::Spot;
use crate::refusal::Refusal;
use std::fmt;

/// A refusal with all that is known about it.
#[derive(Clone, PartialEq, Eq, Debug)]
pub struct Told {
    /// The refusal.
    pub refusal: Refusal,
    /// The word at fault, for refusals of template, script or bookings.
    pub word: Option<Word>,
    /// What else there is to say.
    pub note: Option<String>,
    /// Where it stands in the text, if it comes from one.
    pub spot: Option<Spot>,
}

/// The word at fault.
#[derive(Clone, PartialEq, Eq, Debug)]
pub struct Word {
    /// The file that the refusal's place is counted in: template, script or bookings.
    pub file: &'static str,
    /// The word; none if it is missing.
    pub value: Option<u16>,
    /// What it is for.
    pub role: String,
}

impl Told {
    /// A refusal that no word is to blame for.
    pub fn without_word(refusal: Refusal, note: Option<String>) -> Told {
        Told {
            refusal,
            word: None,
            note,
            spot: None,
        }
    }

    /// A refusal at a word.
    pub fn at_word(refusal: Refusal, word: Word, spot: Option<Spot>) -> Told {
        Told {
            refusal,
            word: Some(word),
            note: None,
            spot,
        }
    }
}

impl fmt::Display for Told {
    fn fmt(&self, out: &mut fmt::Formatter<'_>) -> fmt::Result {
        let Refusal { number, place } = self.refusal;
        write!(out, "refused {number} {place}: {}", self.refusal.meaning())?;
        if let Some(note) = &self.note {
            write!(out, "\n  {note}")?;
        }
        match &self.word {
            None => Ok(()),
            Some(Word { file, value, role }) => match value {
                Some(value) => write!(out, "\n  word {place} of the {file} is {value}: {role}"),
                None => write!(out, "\n  the {file} has no word {place}: {role}"),
            },
        }
    }
}
