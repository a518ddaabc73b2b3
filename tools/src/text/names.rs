//! The names of a text and their numbers. A name that a list has twice is a fault, and so is one that nobody knows;
//! that is told with the nearest name. A name in a statement at fault may have been introduced there, so it isn't told
//! as unknown.

use super::nearest::nearest;
use super::{Fault, Faults, Name, Spot};
use std::collections::{HashMap, HashSet};

/// The words that are parts.
const PARTS: [&str; 3] = ["nothing", "choice", "all"];

/// The names of one list.
pub struct Names<'a> {
    what: &'static str,
    numbers: HashMap<&'a str, u16>,
    doubtful: &'a HashSet<String>,
    /// Where unknown names stand that are noted. Links that share a line share a name.
    noted: HashSet<Spot>,
}

impl<'a> Names<'a> {
    /// The names of a list of these things, in its order.
    pub fn new(
        what: &'static str,
        names: impl Iterator<Item = &'a Name>,
        doubtful: &'a HashSet<String>,
        faults: &mut Faults,
    ) -> Names<'a> {
        let mut numbers = HashMap::new();
        for (index, Name { text, spot }) in names.enumerate() {
            let number = count(index, *spot, faults);
            if PARTS.contains(&text.as_str()) {
                let message = format!("a {what} can't be named `{text}`, which is a part");
                faults.note(|| Fault::at(*spot, message));
            } else if numbers.insert(text.as_str(), number).is_some() {
                faults.note(|| Fault::at(*spot, format!("the {what} `{text}` is named twice")));
            }
        }
        Names {
            what,
            numbers,
            doubtful,
            noted: HashSet::new(),
        }
    }

    /// The number of a name; some number if the name isn't known.
    pub fn find(&mut self, name: &Name, faults: &mut Faults) -> u16 {
        if let Some(number) = self.numbers.get(name.text.as_str()) {
            return *number;
        }
        if !self.doubtful.contains(&name.text) && self.noted.insert(name.spot) {
            faults.note(|| self.unknown(name));
        }
        0
    }

    fn unknown(&self, name: &Name) -> Fault {
        let hint = match nearest(&name.text, self.numbers.keys().copied()) {
            Some(known) => format!(", perhaps `{known}`"),
            None => String::new(),
        };
        Fault::at(
            name.spot,
            format!("no {} is named `{}`{hint}", self.what, name.text),
        )
    }
}

/// A count as a word.
pub fn count(count: usize, spot: Spot, faults: &mut Faults) -> u16 {
    u16::try_from(count).unwrap_or_else(|_| {
        faults.note(|| Fault::at(spot, "no word can count this many"));
        0
    })
}
