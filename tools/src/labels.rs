//! A label is a kind with a way: links of a kind that start at a card, or that arrive at it. Counts and much else
//! are kept with one value for each label.

use crate::numbers::Kind;
use std::ops::{Index, IndexMut};

/// Which way a link runs, seen from a card at one of its ends.
#[derive(Clone, Copy, PartialEq, Eq, PartialOrd, Ord, Debug)]
pub enum Way {
    /// It starts at the card.
    Outgoing,
    /// It arrives at the card.
    Incoming,
}

impl Way {
    /// Both ways, in the order of counts.
    pub const BOTH: [Way; 2] = [Way::Outgoing, Way::Incoming];
}

/// A kind with a way. The order is that of counts: outgoing before incoming, then by kind.
#[derive(Clone, Copy, PartialEq, Eq, PartialOrd, Ord, Debug)]
pub struct Label {
    /// Which way the links run.
    pub way: Way,
    /// Their kind.
    pub kind: Kind,
}

impl Label {
    /// The links of a kind that start at a card.
    pub fn outgoing(kind: Kind) -> Label {
        Label {
            way: Way::Outgoing,
            kind,
        }
    }

    /// The links of a kind that arrive at a card.
    pub fn incoming(kind: Kind) -> Label {
        Label {
            way: Way::Incoming,
            kind,
        }
    }

    /// The label of the same links, seen from their other end.
    pub fn turned(self) -> Label {
        match self.way {
            Way::Outgoing => Label::incoming(self.kind),
            Way::Incoming => Label::outgoing(self.kind),
        }
    }

    /// All labels of so many kinds, in the order of counts.
    pub fn all(kinds: u16) -> impl Iterator<Item = Label> {
        let of_way = move |way| {
            (0..kinds).map(move |kind| Label {
                way,
                kind: Kind(kind),
            })
        };
        Way::BOTH.into_iter().flat_map(of_way)
    }
}

/// A value for each label: those of the outgoing kinds, then those of the incoming ones.
#[derive(Clone, PartialEq, Eq, Debug)]
pub struct Labelled<T> {
    values: Vec<T>,
}

impl<T> Labelled<T> {
    /// The same value for each label of so many kinds.
    pub fn new(kinds: u16, value: T) -> Labelled<T>
    where
        T: Clone,
    {
        Labelled {
            values: vec![value; 2 * usize::from(kinds)],
        }
    }

    /// The count of kinds.
    pub fn kinds(&self) -> u16 {
        (self.values.len() / 2) as u16
    }

    /// All values, in the order of counts.
    pub fn values(&self) -> &[T] {
        &self.values
    }

    /// All values with their labels.
    pub fn iter(&self) -> impl Iterator<Item = (Label, &T)> {
        Label::all(self.kinds()).zip(&self.values)
    }

    fn place(&self, label: Label) -> usize {
        match label.way {
            Way::Outgoing => label.kind.index(),
            Way::Incoming => self.values.len() / 2 + label.kind.index(),
        }
    }
}

impl<T> From<Vec<T>> for Labelled<T> {
    /// The values of a list that has two for each kind.
    fn from(values: Vec<T>) -> Labelled<T> {
        assert!(values.len() % 2 == 0, "a kind has two labels");
        Labelled { values }
    }
}

impl<T> Index<Label> for Labelled<T> {
    type Output = T;

    fn index(&self, label: Label) -> &T {
        &self.values[self.place(label)]
    }
}

impl<T> IndexMut<Label> for Labelled<T> {
    fn index_mut(&mut self, label: Label) -> &mut T {
        let place = self.place(label);
        &mut self.values[place]
    }
}
