//! The two typings of a script.

use crate::{Card, Refusal, Shape};

/// Which shapes each card has.
#[derive(Clone, Debug, PartialEq, Eq)]
pub struct Typing {
    grid: Vec<u8>,
    cards: u16,
    shapes: u16,
}

impl Typing {
    /// A grid of cards × shapes bytes.
    pub(crate) fn new(grid: Vec<u8>, cards: u16, shapes: u16) -> Typing {
        Typing { grid, cards, shapes }
    }

    /// Whether a card has a shape; not if there is no such card or shape.
    pub fn has(&self, card: Card, shape: Shape) -> bool {
        let place = usize::from(card.0) * usize::from(self.shapes) + usize::from(shape.0);
        card.0 < self.cards && shape.0 < self.shapes && self.grid[place] == 1
    }

    /// The shapes of a card, ascending.
    pub fn shapes_of(&self, card: Card) -> impl Iterator<Item = Shape> + '_ {
        (0..self.shapes).map(Shape).filter(move |&shape| self.has(card, shape))
    }

    /// How many cards there are.
    pub fn cards(&self) -> u16 {
        self.cards
    }

    /// A byte for each pair: 1 where card n has shape t, at place n × shapes + t, else 0.
    pub fn grid(&self) -> &[u8] {
        &self.grid
    }
}

/// The largest typing and how it was found.
#[derive(Clone, Debug, PartialEq, Eq)]
pub struct Largest {
    /// The typing.
    pub typing: Typing,
    /// How many rounds strike pairs, and the one that strikes none.
    pub rounds: usize,
    /// How many pairs are struck.
    pub struck: usize,
    /// How many cards have some link and no shape.
    pub bare: usize,
}

/// The smallest typing that holds the bookings.
#[derive(Clone, Debug, PartialEq, Eq)]
pub struct Smallest {
    /// The typing.
    pub typing: Typing,
    /// How many pairs it has.
    pub pairs: usize,
}

/// Both typings of a script.
#[derive(Clone, Debug, PartialEq, Eq)]
pub struct Both {
    /// The largest typing.
    pub largest: Largest,
    /// The smallest typing, or the card and the shape that are not met.
    pub smallest: Result<Smallest, Refusal>,
}
