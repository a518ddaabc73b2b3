//! Everything at its limit as in the densest sheet, with shapes of choices, and of stars and pluses within an all. A
//! card has several links of some kinds, whose counts have to be divided by lows and highs. Most cards fit every
//! shape; a few don't fit every other shape, and from these the strikes reach every pair.

use super::{booked, dense_links, filled, COMMON};
use crate::generate::parts::Bounds;
use crate::generate::scripts;
use crate::labels::Way;
use crate::numbers::Kind;
use crate::random::Random;
use crate::script::MOST_CARDS;
use crate::sheet::Files;
use crate::template::{Link, Part, Template, MOST_KINDS, MOST_SHAPES};

/// A kind, and how many links of it a card has.
type Run = (u16, u16);

/// How many links of a shape are in its first choice.
const IN_FIRST: u16 = 15;

/// In each shape a star over choices: over a choice of 15 links and of a choice of 15 others, or over an all of two
/// such choices. All lows and highs are 2 or more. A card has two links of each of four kinds: two kinds of each
/// choice, or one and three.
pub fn choices() -> Files {
    let part = |shape| {
        let links = dense_links(shape, &[Way::Outgoing]);
        let mut first = bounded(&links, |kind| (2, Some(2 + kind.0 % 3)));
        let second = Part::Choice(first.split_off(IN_FIRST.into()));
        let choices = match shape % 2 {
            0 => Part::Choice([first, vec![second]].concat()),
            _ => Part::All(vec![Part::Choice(first), second]),
        };
        Part::Star(Box::new(choices))
    };
    sheet(part, |random, card| {
        let of_first = if card % 16 == 0 { 1 } else { 2 };
        let mut kinds: [Vec<u16>; 2] = [(0..IN_FIRST).collect(), (IN_FIRST..COMMON).collect()];
        kinds.iter_mut().for_each(|kinds| random.shuffle(kinds));
        let chosen = kinds[0][..of_first].iter().chain(&kinds[1][..4 - of_first]);
        chosen.map(|kind| (*kind, 2)).collect()
    })
}

/// Each shape an all of two stars and two pluses, each over an all of 7 links. The first two kinds of a star have to
/// be there if any of its kinds is; the pluses take the empty bag. A card has links of four kinds of one star, and
/// one link of each plus.
pub fn groups() -> Files {
    let part = |shape| Part::All((0..4).map(|number| group(shape, number)).collect());
    sheet(part, |random, card| {
        let star = 6 * (card % 2);
        let of_second = if card % 16 == 0 { 1 } else { 2 };
        vec![
            (star, 2),
            (star + 1, of_second),
            (star + random.word(2, 3), 1),
            (star + random.word(4, 5), 3 - of_second),
            (random.word(12, 17), 1),
            (random.word(18, 23), 1),
        ]
    })
}

/// One of the four groups of a shape: six of the common kinds and one of its own.
fn group(shape: u16, number: usize) -> Part {
    let all = dense_links(shape, &[Way::Outgoing]);
    let (common, own) = all.split_at(COMMON.into());
    let mut links = common[6 * number..6 * number + 6].to_vec();
    links.push(own[number].clone());
    let of_star = |Kind(kind)| match kind % 6 {
        0 if kind < COMMON => (1, Some(2)),
        1 if kind < COMMON => (1 + shape % 2, Some(4)),
        _ => (0, Some(3)),
    };
    match number {
        0 | 1 => Part::Star(Box::new(Part::All(bounded(&links, of_star)))),
        _ => Part::Plus(Box::new(Part::All(bounded(&links, |_| (0, Some(2)))))),
    }
}

/// These links with bounds by their kinds.
fn bounded(links: &[Part], bounds: impl Fn(Kind) -> Bounds) -> Vec<Part> {
    let change = |link: Link| {
        let (low, high) = bounds(link.label.kind);
        Link { low, high, ..link }
    };
    links.iter().map(|link| link.with_links(&change)).collect()
}

/// A sheet with these parts, as many as there can be shapes, and all cards with so many links of some kinds.
fn sheet(part: impl Fn(u16) -> Part, runs: impl Fn(&mut Random, u16) -> Vec<Run>) -> Files {
    let mut random = Random::new(13);
    let parts = (0..MOST_SHAPES).map(part);
    let template = filled(Template::closed(MOST_KINDS, parts.collect()));
    let mut links = scripts::Links::new();
    for card in 0..MOST_CARDS {
        for (kind, count) in runs(&mut random, card) {
            let start = random.word(0, MOST_CARDS - 1);
            links.extend((0..count).map(|step| (card, kind, (start + step) % MOST_CARDS)));
        }
    }
    booked(&template, &links)
}
