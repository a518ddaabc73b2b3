//! What a refusal means for the text that the words come from, in the words of those who write texts.

use super::compile::Compiled;
use super::roles::first_place;
use crate::refusal::Refusal;
use crate::script::{MOST_CARDS, MOST_LINKS};
use crate::template::{MOST_COUNT, MOST_DEPTH, MOST_GROUP, MOST_KINDS, MOST_SHAPES, MOST_WORDS};
use crate::typing::bookings::MOST_BOOKINGS;

/// What there is to say about a refusal beyond its meaning.
pub fn hint(compiled: &Compiled, refusal: Refusal) -> Option<String> {
    let Refusal { number, place } = refusal;
    let of_template = |place: usize| compiled.template.words.get(place).copied();
    let over = |count: u16, what: &str, most: u16| format!("there are {count} {what}; {most} is the most");
    Some(match number {
        1 => {
            let words = compiled.template.words.len();
            format!("kinds and shapes take {words} words; {MOST_WORDS} is the most")
        }
        2 => match of_template(0)? {
            0 => "no kind is named; a line `kinds: NAME ...` is missing".to_string(),
            kinds => over(kinds, "kinds", MOST_KINDS),
        },
        3 => match of_template(1)? {
            0 => "there is no shape; a line `shape NAME = PART` is missing".to_string(),
            shapes => over(shapes, "shapes", MOST_SHAPES),
        },
        6 => format!("parts lie more than {MOST_DEPTH} deep within each other here"),
        8 => "the kind stands earlier in this shape the same way; each may stand there once each way"
            .to_string(),
        10 => bounds(of_template(place)?, of_template(place + 1)?),
        11 => format!(
            "choice and all take 2 to {MOST_GROUP} parts, not {}",
            of_template(place)?
        ),
        21 => over(*compiled.script.words.first()?, "cards", MOST_CARDS),
        22 => over(*compiled.script.words.get(1)?, "links", MOST_LINKS),
        25 => "this link stands twice".to_string(),
        31 => over(*compiled.bookings.words.first()?, "bookings", MOST_BOOKINGS),
        // A text gives whole files, so its words can only be too many.
        60 => format!("its words take {} bytes", compiled.files().bytes().len()),
        65 => booked_before(compiled, place)?,
        66 if place > 0 => {
            "`book` takes 0, radio or no word for the radio, and 1 or television for the other desk"
                .to_string()
        }
        _ => return None,
    })
}

/// Where the desk that books a pair at a place books it first.
fn booked_before(compiled: &Compiled, place: usize) -> Option<String> {
    let first = first_place(&compiled.bookings.words, place)?;
    let spot = compiled.bookings.origins[first].spot;
    Some(format!("it is booked at {spot} already"))
}

/// What is wrong with a low and a high.
fn bounds(low: u16, high: u16) -> String {
    if low > MOST_COUNT {
        format!("the low is {low}; {MOST_COUNT} is the most")
    } else if high > MOST_COUNT {
        format!("the high is {high}; {MOST_COUNT} is the most, and no limit is written `[{low};]`")
    } else {
        format!("the low {low} is above the high {high}")
    }
}
