//! Quotations, the titles of a text: how they are read and written. `\"` stands for a quotation mark and `\\` for
//! a backslash; a backslash before anything else is a fault, so that it can get a meaning later.

use super::{Fault, Spot};

/// The quotation that the characters start with, and how many of them it takes. The spot is that of its start.
pub fn read(characters: &[char], spot: Spot) -> Result<(String, usize), Fault> {
    let mut inside = String::new();
    let mut index = 1;
    while let Some(character) = characters.get(index) {
        let here = Spot {
            column: spot.column + index,
            ..spot
        };
        match (character, characters.get(index + 1)) {
            ('"', _) => return Ok((inside, index + 1)),
            ('\\', Some(escaped @ ('"' | '\\'))) => {
                inside.push(*escaped);
                index += 1;
            }
            ('\\', _) => {
                let message = "after a backslash in a quotation only `\\` or `\"` may stand";
                return Err(Fault::at(here, message));
            }
            (other, _) if other.is_control() && *other != '\t' => {
                let message = format!("the control character {other:?} can't stand in a quotation");
                return Err(Fault::at(here, message));
            }
            (other, _) => inside.push(*other),
        }
        index += 1;
    }
    Err(Fault::at(spot, "the quotation isn't closed on its line"))
}

/// The quotation of a text, which `read` reads back.
pub fn write(text: &str) -> String {
    let inside = text.replace('\\', "\\\\").replace('"', "\\\"");
    format!("\"{inside}\"")
}
