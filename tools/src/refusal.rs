//! A refusal: its number in docs/FORMAT.md and the index of the word at fault, or of the byte for 61; 0 for a call's
//! own desk, 66.
//! Only 50 and 62 are not among these, because their place is a card and a shape (see `typing::Smallest` and
//! `typing::judge::Judged`).

use crate::words;
use std::fmt;

/// Why an operation turned its input down.
#[derive(Clone, Copy, PartialEq, Eq, Debug)]
pub struct Refusal {
    /// The number of this fault.
    pub number: u16,
    /// The index of the word at fault, counted in its own file; of the byte in the grid for 61.
    pub place: usize,
}

impl Refusal {
    /// The refusal with this number at this place.
    pub fn at(number: u16, place: usize) -> Refusal {
        Refusal { number, place }
    }

    /// What it means, in the words of the library.
    pub fn meaning(self) -> &'static str {
        words::reason(self.number, self.place)
    }
}

impl fmt::Display for Refusal {
    fn fmt(&self, out: &mut fmt::Formatter<'_>) -> fmt::Result {
        write!(
            out,
            "refusal {} at place {}: {}",
            self.number,
            self.place,
            self.meaning()
        )
    }
}
