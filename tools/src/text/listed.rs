//! What is told of a list that may be long: its first entries, and how many more there are.

/// The most entries that are told.
pub const MOST_TOLD: usize = 20;

/// The first entries of a list, and how many more it has.
#[derive(Clone, PartialEq, Eq, Debug)]
pub struct Listed<T> {
    /// The first entries.
    pub told: Vec<T>,
    /// How many more there are.
    pub more: usize,
}

impl<T> Default for Listed<T> {
    fn default() -> Listed<T> {
        Listed {
            told: Vec::new(),
            more: 0,
        }
    }
}

impl<T> Listed<T> {
    /// A list of one.
    pub fn one(entry: T) -> Listed<T> {
        Listed {
            told: vec![entry],
            more: 0,
        }
    }

    /// Adds an entry, which is made only if it is told.
    pub fn note(&mut self, make: impl FnOnce() -> T) {
        if self.told.len() < MOST_TOLD {
            self.told.push(make());
        } else {
            self.more += 1;
        }
    }

    /// Whether the list has no entries.
    pub fn is_empty(&self) -> bool {
        self.told.is_empty()
    }
}
