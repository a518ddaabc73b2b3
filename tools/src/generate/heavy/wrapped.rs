//! Cards, links, shapes and depth at their limits: each link of a shape lies below ten stars, pluses and optionals. The
//! links of a card are of kinds and to cards drawn at random, so few cards are alike.

use super::booked;
use crate::generate::parts::outgoing;
use crate::generate::scripts;
use crate::random::Random;
use crate::script::{MOST_CARDS, MOST_LINKS};
use crate::sheet::Files;
use crate::template::{Part, Template, MOST_KINDS, MOST_SHAPES};

/// How many kinds each shape names, those with the lowest numbers.
const NAMED: u16 = 8;
/// How many stars, pluses and optionals each link lies below.
const WRAPPERS: u16 = 10;

/// 32 closed shapes, each an all of 8 links below ten wrappers, and 1,024 cards with 8 links each.
pub fn wrapped() -> Files {
    let mut random = Random::new(17);
    let mut links = scripts::Links::new();
    for card in 0..MOST_CARDS {
        let most = usize::from(card + 1) * usize::from(MOST_LINKS / MOST_CARDS);
        while links.len() < most {
            links.insert((card, random.word(0, NAMED - 1), random.word(0, MOST_CARDS - 1)));
        }
    }
    booked(&wrapped_template(), &links)
}

/// The shapes, with as many links as shapes of one size have words for.
fn wrapped_template() -> Template {
    let part = |shape| Part::All((0..NAMED).map(|kind| link(shape, kind)).collect());
    Template::closed(MOST_KINDS, (0..MOST_SHAPES).map(part).collect())
}

/// A link below star, plus and optional in turn. Which comes first, the low of 1 or 2, the high of 2 to 4 and the far
/// shape vary by shape and kind.
fn link(shape: u16, kind: u16) -> Part {
    let (low, high) = (1 + (kind + shape) % 2, 2 + (kind + 2 * shape) % 3);
    let far = (shape + kind) % MOST_SHAPES;
    let wrap = |part, number: u16| match (kind + shape + number) % 3 {
        0 => Part::Star(Box::new(part)),
        1 => Part::Plus(Box::new(part)),
        _ => Part::Optional(Box::new(part)),
    };
    (0..WRAPPERS).fold(outgoing(kind, far, low, Some(high)), wrap)
}
