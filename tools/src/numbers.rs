//! Card, kind and shape numbers count three different lists, each from 0. They are three types here,
//! so that none is compared with or added to another by mistake.

/// The number of a card of the script.
#[derive(Clone, Copy, PartialEq, Eq, PartialOrd, Ord, Debug)]
pub struct Card(pub u16);

/// The number of a kind of link.
#[derive(Clone, Copy, PartialEq, Eq, PartialOrd, Ord, Debug)]
pub struct Kind(pub u16);

/// The number of a shape of the template.
#[derive(Clone, Copy, PartialEq, Eq, PartialOrd, Ord, Debug)]
pub struct Shape(pub u16);

impl Card {
    /// Where this card stands in a list with one entry per card.
    pub fn index(self) -> usize {
        usize::from(self.0)
    }
}

impl Kind {
    /// Where this kind stands in a list with one entry per kind.
    pub fn index(self) -> usize {
        usize::from(self.0)
    }
}

impl Shape {
    /// Where this shape stands in a list with one entry per shape.
    pub fn index(self) -> usize {
        usize::from(self.0)
    }
}
