//! What the library turns down, in the library's words. The constants come from prep_refusals.def.

use crate::raw::{self, Call};
use crate::{Card, Shape};
use std::fmt;

include!(concat!(env!("OUT_DIR"), "/refusals.rs"));

/// Where a refusal's place is counted.
#[derive(Clone, Copy, Debug, PartialEq, Eq, Hash)]
pub enum File {
    /// In no file.
    Nothing,
    /// In the template.
    Template,
    /// In the script.
    Script,
    /// In the booking list.
    Bookings,
    /// In the counts that a shape is asked for.
    Counts,
    /// In a grid.
    Grid,
    /// In the input of a program.
    Input,
    /// In the words of a list that is tidied.
    Tidied,
}

impl File {
    /// All, in the order of `enum prep_file`.
    const ALL: [File; 8] = [
        File::Nothing,
        File::Template,
        File::Script,
        File::Bookings,
        File::Counts,
        File::Grid,
        File::Input,
        File::Tidied,
    ];
}

/// Where a refusal's fault is.
#[derive(Clone, Copy, Debug, PartialEq, Eq, Hash)]
pub enum Place {
    /// The index of the word at fault in its own file; in a grid, of the byte.
    Word(usize),
    /// The card and the shape that are not met.
    Pair {
        /// The card.
        card: Card,
        /// The shape.
        shape: Shape,
    },
}

/// A refusal: its number and the place of the fault. It prints as a message in words.
#[derive(Clone, Copy, Debug, PartialEq, Eq, Hash)]
pub struct Refusal {
    /// The number, one of the constants in `refusals`.
    pub number: u16,
    /// Where the fault is.
    pub place: Place,
}

/// The call for whose refusals words are asked. What means one thing in one call and another in another is only ever
/// this call's here: the others are lent grids and words of the right length, and a `Desk` is one of two.
const CALL: Call = Call::Judge;

impl Refusal {
    /// What is wrong, without the place.
    pub fn reason(&self) -> &'static str {
        raw::call_reason(CALL, self.number, self.word())
    }

    /// Where the place is counted.
    pub fn file(&self) -> File {
        let file = raw::call_file(CALL, self.number, self.word());
        File::ALL.get(file as usize).copied().unwrap_or(File::Nothing)
    }

    /// The place as the library tells it: 0 beside a card and a shape.
    fn word(&self) -> usize {
        match self.place {
            Place::Word(place) => place,
            Place::Pair { .. } => 0,
        }
    }
}

impl fmt::Display for Refusal {
    fn fmt(&self, f: &mut fmt::Formatter<'_>) -> fmt::Result {
        write!(f, "{} (refusal {}", self.reason(), self.number)?;
        match (self.place, self.file()) {
            (Place::Pair { card, shape }, _) => write!(f, ", card {card}, shape {shape})"),
            (Place::Word(_), File::Nothing) => write!(f, ")"),
            (Place::Word(place), File::Grid) => write!(f, ", byte {place})"),
            (Place::Word(place), _) => write!(f, ", word {place})"),
        }
    }
}

impl std::error::Error for Refusal {}

/// The refusal that an answer's number and place tell, if any.
pub(crate) fn refused(number: u16, place: usize) -> Result<(), Refusal> {
    match number {
        0 => Ok(()),
        _ => Err(Refusal { number, place: Place::Word(place) }),
    }
}

/// The same for an answer that also has a card and a shape: two numbers have these instead of a place.
pub(crate) fn refused_pair(number: u16, place: usize, card: u16, shape: u16) -> Result<(), Refusal> {
    match number {
        refusals::NOT_MET | refusals::GRID_NOT_MET => {
            Err(Refusal { number, place: Place::Pair { card: Card(card), shape: Shape(shape) } })
        }
        _ => refused(number, place),
    }
}
