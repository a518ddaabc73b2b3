//! A card with all the links that a script can have, and one with a link less. A run is at most as long as there are
//! cards, so the longest is of 1,024 links.

use super::{plus, sheet, star, Runs};
use crate::generate::parts::outgoing;
use crate::script::{MOST_CARDS, MOST_LINKS};
use crate::sheet::Files;
use crate::template::{Definition, Part, MOST_KINDS};

/// Both sheets, with their names.
pub fn most() -> Vec<(String, Files)> {
    vec![
        ("runs-8192".to_string(), all_from_the_last()),
        ("runs-8191".to_string(), all_but_one_from_the_first()),
    ]
}

/// Links with bounds by their kinds, which stand in this order.
fn links(kinds: impl Iterator<Item = u16>, bounds: impl Fn(u16) -> (u16, u16)) -> Vec<Part> {
    let link = |kind| {
        let (low, high) = bounds(kind);
        outgoing(kind, 0, low, Some(high))
    };
    kinds.map(link).collect()
}

/// As many cards and links as can be. All links start at the last card: one of kind 0, 1,024 of each of kinds 1 to 7,
/// and 1,023 of kind 8.
fn all_from_the_last() -> Files {
    let length = |kind: u16| match kind {
        0 => 1,
        8 => MOST_CARDS - 1,
        _ => MOST_CARDS,
    };
    let third = |kind: u16| match kind {
        0 => (0, 1),
        8 => (341, 341),
        _ => (341, 342),
    };
    let exactly = |kind| (length(kind), length(kind));
    let too_many = |kind| (length(kind) + kind / 8, MOST_CARDS);
    let too_few = |kind| (third(kind).0, 341);
    let interleaved = || [1, 3, 5, 7, 0, 2, 4, 6, 8].into_iter();
    let shapes = vec![
        Definition::closed(Part::all_of(links((0..9).rev(), exactly))),
        Definition::closed(Part::all_of(links((0..9).rev(), too_many))),
        Definition::closed(plus(Part::all_of(links(interleaved(), third)))),
        Definition::closed(plus(Part::all_of(links(interleaved(), too_few)))),
        Definition::closed(plus(Part::Choice(links(interleaved(), |_| (1, 1))))),
        Definition::open(Part::all_of(links([4].into_iter(), exactly))),
        Definition::open(Part::all_of(links([8, 0].into_iter(), |kind| {
            (1, length(kind) - kind / 8)
        }))),
    ];
    let runs: Vec<(u16, u16)> = (0..9).map(|kind| (kind, length(kind))).collect();
    let mut cards: Vec<Runs> = vec![&[]; MOST_CARDS.into()];
    cards[usize::from(MOST_CARDS) - 1] = &runs;
    sheet(9, shapes, &cards, (MOST_CARDS - 1, 1))
}

/// All kinds, and 128 links of each but the last start at the first card of 128, 127 of that one; one link of that
/// kind starts at the last card.
fn all_but_one_from_the_first() -> Files {
    let (number, last) = (MOST_LINKS / MOST_KINDS, MOST_KINDS - 1);
    let length = |kind: u16| number - kind / last;
    let exactly = |kind| (length(kind), length(kind));
    let kinds = || 0..MOST_KINDS;
    let interleaved = kinds().step_by(2).chain(kinds().skip(1).step_by(2));
    let shapes = vec![
        Definition::closed(Part::all_of(links(kinds().rev(), exactly))),
        Definition::closed(star(Part::all_of(links(interleaved, |kind| {
            (length(kind) / 2, 64)
        })))),
        Definition::closed(Part::all_of(links(kinds().rev(), |kind| (0, 127 + kind.min(1))))),
        Definition::open(outgoing(last, 0, 1, Some(127))),
    ];
    let runs: Vec<(u16, u16)> = kinds().map(|kind| (kind, length(kind))).collect();
    let one = [(last, 1)];
    let mut cards: Vec<Runs> = vec![&[]; number.into()];
    cards[0] = &runs;
    cards[usize::from(number) - 1] = &one;
    sheet(MOST_KINDS, shapes, &cards, (0, 0))
}
