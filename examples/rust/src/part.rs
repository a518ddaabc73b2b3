//! The parts of a shape, and their words.

use crate::{Kind, Shape};
use std::ops::{RangeFrom, RangeInclusive};

/// How many links a link part asks for.
#[derive(Clone, Copy, Debug, PartialEq, Eq)]
pub struct Bounds {
    low: u16,
    high: u16,
}

/// The high that stands for no limit.
const NO_LIMIT: u16 = u16::MAX;

/// How many kinds a template may have, and so how many codes there are for links each way.
const MOST_KINDS: u16 = 64;

/// The code of an outgoing link of kind 0.
const OUTGOING: u16 = 256;

/// The code of an incoming link of kind 0.
const INCOMING: u16 = 320;

impl From<u16> for Bounds {
    /// Exactly so many.
    fn from(count: u16) -> Bounds {
        Bounds { low: count, high: count }
    }
}

impl From<RangeInclusive<u16>> for Bounds {
    /// From low to high.
    fn from(range: RangeInclusive<u16>) -> Bounds {
        Bounds { low: *range.start(), high: *range.end() }
    }
}

impl From<RangeFrom<u16>> for Bounds {
    /// At least so many.
    fn from(range: RangeFrom<u16>) -> Bounds {
        Bounds { low: range.start, high: NO_LIMIT }
    }
}

/// A part of a shape: which links a card has. Links that arrive count only if the shape names their kind as incoming;
/// links that start at the card count anyway, unless the shape is open.
#[derive(Clone, Debug, PartialEq, Eq)]
pub enum Part {
    /// No links.
    Nothing,
    /// The part zero or more times.
    Star(Box<Part>),
    /// The part one or more times.
    Plus(Box<Part>),
    /// Nothing or the part.
    Optional(Box<Part>),
    /// One of the parts.
    Choice(Vec<Part>),
    /// Each of the parts.
    All(Vec<Part>),
    /// Links of a kind that start at the card, to cards of a shape.
    Link(Kind, Shape, Bounds),
    /// Links of a kind that arrive at the card, from cards of a shape.
    Incoming(Kind, Shape, Bounds),
}

impl Part {
    /// The part zero or more times.
    pub fn star(part: Part) -> Part {
        Part::Star(Box::new(part))
    }

    /// The part one or more times.
    pub fn plus(part: Part) -> Part {
        Part::Plus(Box::new(part))
    }

    /// Nothing or the part.
    pub fn optional(part: Part) -> Part {
        Part::Optional(Box::new(part))
    }

    /// One of the parts.
    pub fn choice(parts: impl Into<Vec<Part>>) -> Part {
        Part::Choice(parts.into())
    }

    /// Each of the parts.
    pub fn all(parts: impl Into<Vec<Part>>) -> Part {
        Part::All(parts.into())
    }

    /// Links of a kind to cards of a shape: `2` is exactly two, `0..=3` none to three, `1..` one or more.
    pub fn link(kind: Kind, shape: Shape, bounds: impl Into<Bounds>) -> Part {
        Part::Link(kind, shape, bounds.into())
    }

    /// Links of a kind that arrive from cards of a shape. Those of a kind that a shape does not name so are ignored.
    pub fn incoming(kind: Kind, shape: Shape, bounds: impl Into<Bounds>) -> Part {
        Part::Incoming(kind, shape, bounds.into())
    }

    /// Appends the part's words. A count that no word holds, or a kind that no code has, becomes the greatest word,
    /// which is refused.
    pub(crate) fn write(&self, words: &mut Vec<u16>) {
        match self {
            Part::Nothing => words.push(0),
            Part::Star(part) => around(1, part, words),
            Part::Plus(part) => around(2, part, words),
            Part::Optional(part) => around(3, part, words),
            Part::Choice(parts) => group(16, parts, words),
            Part::All(parts) => group(17, parts, words),
            Part::Link(kind, shape, bounds) => link(code(OUTGOING, *kind), *shape, *bounds, words),
            Part::Incoming(kind, shape, bounds) => link(code(INCOMING, *kind), *shape, *bounds, words),
        }
    }
}

/// The code of a link of a kind: the way's first code is that of kind 0.
fn code(first: u16, kind: Kind) -> u16 {
    if kind.0 < MOST_KINDS {
        first + kind.0
    } else {
        u16::MAX
    }
}

/// A link's code, shape, low and high.
fn link(code: u16, shape: Shape, bounds: Bounds, words: &mut Vec<u16>) {
    words.extend([code, shape.0, bounds.low, bounds.high]);
}

/// A code and the one part after it.
fn around(code: u16, part: &Part, words: &mut Vec<u16>) {
    words.push(code);
    part.write(words);
}

/// A code, the count of parts, and the parts.
fn group(code: u16, parts: &[Part], words: &mut Vec<u16>) {
    words.extend([code, word(parts.len())]);
    parts.iter().for_each(|part| part.write(words));
}

/// A count as a word; the greatest word if it does not fit, which is over every limit of the format.
pub(crate) fn word(count: usize) -> u16 {
    u16::try_from(count).unwrap_or(u16::MAX)
}
