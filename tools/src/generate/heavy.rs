//! The sheets that take longest, for timing. `nested` has those whose shapes are choices, and stars and pluses of
//! groups, `wrapped` the one whose links lie below many wrappers.

pub mod nested;
pub mod wrapped;

use super::parts::{filler, outgoing};
use super::scripts;
use crate::desk::Desk;
use crate::labels::{Label, Way};
use crate::numbers::{Card, Kind, Shape};
use crate::random::Random;
use crate::script::{MOST_CARDS, MOST_LINKS};
use crate::sheet::Files;
use crate::template::{self, Definition, Part, Template, MOST_KINDS, MOST_SHAPES, MOST_WORDS};
use crate::typing::bookings::{self, MOST_BOOKINGS};
use crate::typing::Pair;

/// The labels that every shape of the densest sheet names.
const COMMON: u16 = 24;
/// The labels that only some of its shapes name.
const OWN: u16 = 6;

/// A ring of all cards under all shapes. Each card leads to the next by kind 0, which keeps the shape; the last leads
/// back to card 0 by kind 1, which asks for the next shape. The last shape doesn't take kind 1, so the last card
/// loses it in round 1. From there each round strikes one pair, shape after shape, until none is left: 1,024 × 32
/// rounds and one more.
pub fn ring() -> Files {
    let last_shape = MOST_SHAPES - 1;
    let parts = (0..MOST_SHAPES).map(|shape| {
        let onwards = outgoing(0, shape, 1, Some(1));
        if shape == last_shape {
            onwards
        } else {
            Part::Choice(vec![onwards, outgoing(1, shape + 1, 1, Some(1))])
        }
    });
    let template = Template::closed(2, parts.collect());
    let mut links: scripts::Links = (1..MOST_CARDS).map(|to| (to - 1, 0, to)).collect();
    links.insert((MOST_CARDS - 1, 1, 0));
    Files {
        template: template::write(&template),
        script: scripts::words(MOST_CARDS, &links),
        bookings: bookings::words(&[(Desk::Radio, (Card(0), Shape(0)))]),
    }
}

/// Everything at its limit at once: 64 kinds, 32 shapes, 4,096 template words, 1,024 cards with 8 links each, and
/// 1,024 bookings. Each shape names 30 kinds, most of them common to all. A few links of other kinds start the
/// strikes, and these reach every pair.
pub fn densest() -> Files {
    dense(&[Way::Outgoing], dense_template(&[Way::Outgoing]))
}

/// The same with half of the labels incoming: each shape names 15 kinds both ways.
pub fn densest_both_ways() -> Files {
    dense(&Way::BOTH, dense_template(&Way::BOTH))
}

/// The densest sheet with every shape open, so that the few links of other kinds are ignored and strike nothing.
pub fn densest_open() -> Files {
    dense(&[Way::Outgoing], dense_open_template())
}

/// The shapes of the densest sheet, and a hub to which all cards lead: card 0, by a link of each of 8 kinds from every
/// card and itself. Every shape takes these kinds in any number, so no pair is struck, and all cards are alike.
pub fn hub() -> Files {
    let each = MOST_LINKS / MOST_CARDS;
    let links = (0..MOST_CARDS).flat_map(|card| (0..each).map(move |kind| (card, kind, 0)));
    booked(&dense_template(&[Way::Outgoing]), &links.collect())
}

/// How many kinds every shape of a dense template names, in each of these ways: those with the lowest numbers.
pub fn common_kinds(ways: &[Way]) -> u16 {
    COMMON / ways.len() as u16
}

/// Cards whose links are of kinds that every shape of this dense template names in these ways, but for a few.
fn dense(ways: &[Way], template: Template) -> Files {
    let mut random = Random::new(7);
    let mut links = scripts::Links::new();
    let each = MOST_LINKS / MOST_CARDS;
    for card in 0..MOST_CARDS {
        let mut left = each;
        if card % 16 == 0 {
            links.insert((
                card,
                random.word(COMMON, MOST_KINDS - 1),
                random.word(0, MOST_CARDS - 1),
            ));
            left -= 1;
        }
        let mut kinds: Vec<u16> = (0..common_kinds(ways)).collect();
        random.shuffle(&mut kinds);
        for kind in &kinds[..usize::from(left)] {
            links.insert((card, *kind, random.word(0, MOST_CARDS - 1)));
        }
    }
    booked(&template, &links)
}

/// All cards with these links, and as many bookings as can be, all by the radio, one for each card.
fn booked(template: &Template, links: &scripts::Links) -> Files {
    let booked: Vec<Pair> = (0..MOST_BOOKINGS)
        .map(|card| (Card(card), Shape(card % MOST_SHAPES)))
        .collect();
    Files {
        template: template::write(template),
        script: scripts::words(MOST_CARDS, links),
        bookings: bookings::words(&bookings::by(Desk::Radio, &booked)),
    }
}

/// 32 shapes of 30 links each, in equal shares for these ways; the last one is filled up to the last word.
pub fn dense_template(ways: &[Way]) -> Template {
    let part = |shape| {
        let links = dense_links(shape, ways);
        let (first, second) = links.split_at(16);
        Part::All(vec![Part::All(first.to_vec()), Part::All(second.to_vec())])
    };
    let parts = (0..MOST_SHAPES).map(part);
    filled(Template::closed(MOST_KINDS, parts.collect()))
}

/// The same with every shape open and its links outgoing. One group less in each shape leaves the words for that.
fn dense_open_template() -> Template {
    let part = |shape| {
        let mut links = dense_links(shape, &[Way::Outgoing]);
        let second = links.split_off(15);
        Part::All([links, vec![Part::All(second)]].concat())
    };
    let definitions = (0..MOST_SHAPES).map(|shape| Definition::open(part(shape)));
    filled(Template {
        kinds: MOST_KINDS,
        definitions: definitions.collect(),
    })
}

/// The template with its last shape filled up to the last word.
fn filled(mut template: Template) -> Template {
    let missing = MOST_WORDS - template::write(&template).len();
    if let Some(last) = template.definitions.last_mut() {
        // An all of two parts takes two words itself.
        last.part = Part::All(vec![last.part.clone(), filler(missing - 2)]);
    }
    template
}

/// The links of a shape: with the common kinds and with its own.
fn dense_links(shape: u16, ways: &[Way]) -> Vec<Part> {
    let own =
        (0..OWN / ways.len() as u16).map(|number| COMMON + (shape * OWN + number) % (MOST_KINDS - COMMON));
    let kinds: Vec<u16> = (0..common_kinds(ways)).chain(own).collect();
    let link = |way: Way, kind: u16| {
        // The two ways of a kind ask for different shapes.
        let far = shape + kind + 5 * way as u16;
        let label = Label {
            way,
            kind: Kind(kind),
        };
        Part::link(label, Shape(far % MOST_SHAPES), 0, None)
    };
    let of_way = |way: &Way| kinds.iter().map(|kind| link(*way, *kind)).collect::<Vec<_>>();
    ways.iter().flat_map(of_way).collect()
}
