//! Brackets while a text is cut into tokens: what is open, and how deep. A bracket that is never closed, or closed
//! by the wrong sign, is told where it opens.

use super::{Fault, Spot};

/// The most brackets within each other. Parts go 12 deep, so this leaves room for brackets that add no depth.
pub const MOST_OPEN: usize = 64;

/// The brackets that are open, outermost first.
#[derive(Default)]
pub struct Brackets {
    open: Vec<(char, Spot)>,
}

impl Brackets {
    /// Notes a sign, which may open or close a bracket, and tells what is wrong with that. A sign that closes nothing
    /// is passed over; one that closes an outer bracket closes those inside it too.
    pub fn note(&mut self, sign: char, spot: Spot) -> Option<Fault> {
        match sign {
            '(' | '[' => {
                self.open.push((sign, spot));
                let message = || format!("more than {MOST_OPEN} brackets lie within each other here");
                (self.open.len() == MOST_OPEN + 1).then(|| Fault::at(spot, message()))
            }
            ')' | ']' => match self.open.pop() {
                None => Some(Fault::at(spot, format!("this `{sign}` closes nothing"))),
                Some((opening, start)) if closing(opening) != sign => {
                    if self.open.last().is_some_and(|(outer, _)| closing(*outer) == sign) {
                        self.open.pop();
                    }
                    let message = format!("this `{opening}` isn't closed before the `{sign}` at {spot}");
                    Some(Fault::at(start, message))
                }
                Some(_) => None,
            },
            _ => None,
        }
    }

    /// Whether none is open.
    pub fn none_open(&self) -> bool {
        self.open.is_empty()
    }

    /// The fault of the innermost bracket that is still open where another statement starts, or at the text's end.
    pub fn end(&self, next: Option<Spot>) -> Option<Fault> {
        let (sign, start) = self.open.last()?;
        let message = match next {
            Some(spot) => format!("this `{sign}` isn't closed before {spot}"),
            None => format!("this `{sign}` is never closed"),
        };
        Some(Fault::at(*start, message))
    }
}

/// The sign that closes what this one opens.
fn closing(opening: char) -> char {
    if opening == '(' {
        ')'
    } else {
        ']'
    }
}
