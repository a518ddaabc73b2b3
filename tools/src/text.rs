//! The text form of a sheet: kinds, shapes and cards by name. TEXT-FORM.md tells how it is written.
//!
//! | here         | what                                                                       |
//! |--------------|----------------------------------------------------------------------------|
//! | `quotations` | titles: how they are read and written                                      |
//! | `brackets`   | which brackets are open, and how deep                                      |
//! | `tokens`     | cuts a text into statements and tokens, each with its line and column      |
//! | `parse`      | reads the statements of a text                                             |
//! | `listed`     | the first entries of a list, and how many more there are                   |
//! | `nearest`    | the known word that was perhaps meant by an unknown one                    |
//! | `names`      | the names of a text and their numbers                                      |
//! | `compile`    | text to words; for each word, where it comes from                          |
//! | `refusals`   | all refusals of a text's words, not only the first                         |
//! | `form`       | whether a file holds text or words                                         |
//! | `load`       | loads a sheet from the bytes of a file, be they text or words              |
//! | `trouble`    | why a file isn't a sheet                                                   |
//! | `told`       | a refusal with the word at fault, what it is for and where it stands       |
//! | `roles`      | what the word at a place of a file is for                                  |
//! | `explain`    | refusals of a text's words                                                 |
//! | `hints`      | what a refusal means for the text that the words come from                 |
//! | `check`      | a sheet that was loaded and run                                            |
//! | `write`      | a sheet as text                                                            |
//! | `tidy`       | a sheet, text or words, with its bookings tidied                           |
//! | `costs`      | how far counts are from those that a part takes                            |
//! | `misfit`     | what a card's links lack for a shape                                       |
//! | `roots`      | which card is to blame if another can't have a shape                       |
//! | `reasons`    | why a card can't have a shape, and who asks for a pair                     |
//! | `sentences`  | reasons in words                                                           |
//! | `report`     | the outcome of a sheet in words                                            |
//! | `judged`     | what is said about a grid that is judged                                   |
//! | `printed`    | what is said about a refusal that some program printed                     |
//! | `json`       | writes JSON                                                                |
//! | `machine`    | what commands tell, as JSON                                                |

pub mod brackets;
pub mod check;
pub mod compile;
pub mod costs;
pub mod explain;
pub mod form;
pub mod hints;
pub mod json;
pub mod judged;
pub mod listed;
pub mod load;
pub mod machine;
pub mod misfit;
pub mod names;
pub mod nearest;
pub mod parse;
pub mod printed;
pub mod quotations;
pub mod reasons;
pub mod refusals;
pub mod report;
pub mod roles;
pub mod roots;
pub mod sentences;
pub mod tidy;
pub mod tokens;
pub mod told;
pub mod trouble;
pub mod write;

use crate::labels::Way;
use listed::Listed;
use std::fmt;

/// A line and a column of a text, both from 1.
#[derive(Clone, Copy, PartialEq, Eq, PartialOrd, Ord, Hash, Debug)]
pub struct Spot {
    /// The line.
    pub line: usize,
    /// The column, in characters.
    pub column: usize,
}

impl fmt::Display for Spot {
    fn fmt(&self, out: &mut fmt::Formatter<'_>) -> fmt::Result {
        write!(out, "line {}, column {}", self.line, self.column)
    }
}

/// What is wrong with a text, and where.
#[derive(Clone, PartialEq, Eq, Debug)]
pub struct Fault {
    /// Where it stands.
    pub spot: Spot,
    /// What is wrong.
    pub message: String,
}

impl Fault {
    /// A fault at this spot.
    pub fn at(spot: Spot, message: impl Into<String>) -> Fault {
        Fault {
            spot,
            message: message.into(),
        }
    }
}

/// What is wrong with a text, all of it or as much as is told.
pub type Faults = Listed<Fault>;

impl fmt::Display for Fault {
    fn fmt(&self, out: &mut fmt::Formatter<'_>) -> fmt::Result {
        write!(out, "{}: {}", self.spot, self.message)
    }
}

/// A name where it stands in the text.
#[derive(Clone, PartialEq, Eq, Debug)]
pub struct Name {
    /// The name.
    pub text: String,
    /// Where it stands.
    pub spot: Spot,
}

/// A text that was read; names aren't looked up yet.
#[derive(Clone, Default, PartialEq, Eq, Debug)]
pub struct Text {
    /// The title of the sheet, for its drawing.
    pub title: Option<String>,
    /// The kinds; a kind's number is its index.
    pub kinds: Vec<Name>,
    /// The shapes; a shape's number is its index.
    pub shapes: Vec<ShapeLine>,
    /// The cards with their titles; a card's number is its index.
    pub cards: Vec<(Name, Option<String>)>,
    /// The links in the order of the text: from, kind, to.
    pub links: Vec<[Name; 3]>,
    /// The bookings.
    pub bookings: Vec<BookLine>,
}

/// A booking as it is written.
#[derive(Clone, PartialEq, Eq, Debug)]
pub struct BookLine {
    /// The desk's number, and how and where it is written; none if it isn't, which means desk 0.
    pub desk: Option<(u16, Name)>,
    /// The card.
    pub card: Name,
    /// The shape.
    pub shape: Name,
}

/// A shape as it is written.
#[derive(Clone, PartialEq, Eq, Debug)]
pub struct ShapeLine {
    /// Where it says `open`; nowhere if the shape is closed.
    pub open: Option<Spot>,
    /// Its name.
    pub name: Name,
    /// Its part.
    pub part: Expression,
}

/// A part as it is written.
#[derive(Clone, PartialEq, Eq, Debug)]
pub enum Expression {
    /// `nothing`.
    Nothing(Spot),
    /// A part with `*`, `+` or `?` after it; the spot is the sign's.
    Wrap(u16, Box<Expression>, Spot),
    /// `choice(…)` or `all(…)`; the spot is the word's.
    Group(u16, Vec<Expression>, Spot),
    /// `kind[low;high]@Shape`, or the same with `^` before it.
    Link(LinkExpression),
}

/// A link part as it is written.
#[derive(Clone, PartialEq, Eq, Debug)]
pub struct LinkExpression {
    /// Which way the links run; the spot is that of the part's start.
    pub way: (Way, Spot),
    /// The kind.
    pub kind: Name,
    /// The shape at the far end.
    pub shape: Name,
    /// The fewest copies.
    pub low: (u16, Spot),
    /// The most copies; none for no limit.
    pub high: (Option<u16>, Spot),
}

impl Text {
    /// What a card is called on a drawing: its title, or else its name.
    pub fn card_title(&self, card: usize) -> &str {
        let (name, title) = &self.cards[card];
        title.as_deref().unwrap_or(&name.text)
    }

    /// The name of a shape.
    pub fn shape_name(&self, shape: usize) -> &str {
        &self.shapes[shape].name.text
    }
}
