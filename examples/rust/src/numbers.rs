//! The numbers of cards, kinds and shapes.

use std::fmt;

/// A card, by its number.
#[derive(Clone, Copy, Debug, PartialEq, Eq, PartialOrd, Ord, Hash)]
pub struct Card(pub u16);

/// A kind of links, by its number. Cards, kinds and shapes are types of their own, so that none is taken for another:
///
/// ```compile_fail,E0308
/// use prep::{Part, TemplateBuilder};
///
/// let mut template = TemplateBuilder::new();
/// let (next, item) = (template.kind(), template.shape());
/// Part::link(item, next, 1); // the kind comes first
/// ```
#[derive(Clone, Copy, Debug, PartialEq, Eq, PartialOrd, Ord, Hash)]
pub struct Kind(pub u16);

/// A shape, by its number.
#[derive(Clone, Copy, Debug, PartialEq, Eq, PartialOrd, Ord, Hash)]
pub struct Shape(pub u16);

/// Each prints as its number.
macro_rules! prints_its_number {
    ($($name:ident)*) => {$(
        impl fmt::Display for $name {
            fn fmt(&self, f: &mut fmt::Formatter<'_>) -> fmt::Result {
                self.0.fmt(f)
            }
        }
    )*};
}

prints_its_number!(Card Kind Shape);
