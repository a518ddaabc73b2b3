//! Sheets made on purpose: the worked one, long chains of strikes, and everything at its limit.

use super::bookings::bookings as any_bookings;
use super::parts::{filler, outgoing, template as any_template};
use super::{scripts, turns, Case, FULL};
use crate::desk::Desk;
use crate::labels::Label;
use crate::numbers::{Card, Shape};
use crate::random::Random;
use crate::script::{MOST_CARDS, MOST_LINKS};
use crate::sheet::{Files, MOST_BYTES};
use crate::template::{self, Definition, Part, Template, MOST_KINDS, MOST_SHAPES, MOST_WORDS};
use crate::typing::bookings::{self, Booking, MOST_BOOKINGS};
use crate::typing::Setting;

/// The template of the worked sheet (docs/FORMAT.md).
pub const DOCUMENT_TEMPLATE: [u16; 15] = [2, 2, 10, 17, 2, 256, 1, 1, 1, 257, 0, 0, 1, 1, 0];
/// The script of the worked sheet.
pub const DOCUMENT_SCRIPT: [u16; 11] = [3, 3, 0, 0, 2, 0, 1, 1, 1, 0, 0];

/// The worked sheet with these bookings.
pub fn document(booking_words: &[u16]) -> Files {
    Files {
        template: DOCUMENT_TEMPLATE.to_vec(),
        script: DOCUMENT_SCRIPT.to_vec(),
        bookings: booking_words.to_vec(),
    }
}

/// A template with one kind and so many shapes, which are all nothing.
pub fn nothings(shapes: u16) -> Vec<u16> {
    [vec![1, shapes], [1, 0].repeat(shapes.into())].concat()
}

/// The inputs that come first, whatever the seed.
pub fn fixed() -> Vec<Case> {
    let named = |name: &str, bytes| Case {
        name: name.to_string(),
        bytes,
    };
    let empty = Files {
        template: vec![1, 1, 1, 0],
        script: vec![0, 0],
        bookings: vec![0],
    };
    // Shape 0 names kind 0 with shape 1 but takes none: the closure has (0, 1) all the same, and 50 names it.
    let takes_none = Files {
        template: vec![1, 2, 4, 256, 1, 0, 0, 4, 256, 1, 1, 1],
        script: vec![2, 1, 1, 0, 0],
        bookings: vec![1, 0, 1, 0],
    };
    let mut too_many_words = document(&[0]);
    too_many_words.bookings.resize(MOST_BYTES / 2 - 3 - 15 - 11, 0);
    let at_the_edge = too_many_words.bytes();
    too_many_words.bookings.push(0);
    vec![
        named("document-met", document(&[1, 0, 2, 1]).bytes()),
        named("document-not-met", document(&[1, 0, 0, 0]).bytes()),
        named("no-cards", empty.bytes()),
        named("link-that-takes-none", takes_none.bytes()),
        named("no-bytes", Vec::new()),
        named("65536-bytes", at_the_edge),
        named("65538-bytes", too_many_words.bytes()),
        named("chain-1024", chain(MOST_CARDS, false).bytes()),
        named("ring-1024", chain(MOST_CARDS, true).bytes()),
        named("longest-31-8", longest(31, 8).bytes()),
        named("limits", limits(&mut Random::new(1)).bytes()),
    ]
}

/// A random one of this kind of sheet.
pub fn random(random: &mut Random) -> Case {
    let cards = random.word(1, 60);
    let (ring, shapes) = random.pick(&[(7, 3), (11, 4), (13, 5), (25, 2), (31, 3), (9, 8), (5, 31)]);
    let (name, files) = match random.below(8) {
        0 => ("chain", chain(cards, random.chance(1, 4))),
        1 => ("chain-back", turns::chain_back(cards, random.chance(1, 4))),
        2 => ("zigzag", turns::zigzag(cards, random.chance(3, 4))),
        3 | 4 => ("longest", longest(ring, shapes)),
        5 | 6 => ("longest-back", turns::longest_back(ring, shapes)),
        _ => ("limits", limits(random)),
    };
    Case {
        name: name.to_string(),
        bytes: files.bytes(),
    }
}

/// Each card leads to the next one, and must. If the chain isn't closed, each round strikes its last card, so
/// there are as many rounds as cards and one more. Both desks book the card in the middle.
pub fn chain(cards: u16, closed: bool) -> Files {
    let template = Template::closed(1, vec![outgoing(0, 0, 1, Some(1))]);
    let mut links: scripts::Links = (1..cards).map(|to| (to - 1, 0, to)).collect();
    if closed {
        links.insert((cards - 1, 0, 0));
    }
    Files {
        template: template::write(&template),
        script: scripts::words(cards, &links),
        bookings: bookings::words(&Desk::BOTH.map(|desk| (desk, (Card(cards / 2), Shape(0))))),
    }
}

/// A sheet on which each round but the last strikes one pair, and all pairs are struck, so there are N × S + 1
/// rounds. The counts of cards (2 or more) and shapes must have no common factor.
///
/// The cards form a ring, and shape t asks for shape t + 1 at the next card. Card 0 has one link more, of a kind
/// that all shapes but shape 0 take.
pub fn longest(cards: u16, shapes: u16) -> Files {
    let mut parts = vec![outgoing(0, 1 % shapes, 1, Some(1))];
    for shape in 1..shapes {
        let next = (shape + 1) % shapes;
        parts.push(Part::All(vec![
            outgoing(0, next, 1, Some(1)),
            outgoing(1, next, 0, Some(1)),
        ]));
    }
    let mut links: scripts::Links = (0..cards).map(|card| (card, 0, (card + 1) % cards)).collect();
    links.insert((0, 1, 1 % cards));
    Files {
        template: template::write(&Template::closed(2, parts)),
        script: scripts::words(cards, &links),
        bookings: bookings::words(&[(Desk::Radio, (Card(1 % cards), Shape(0)))]),
    }
}

/// 64 kinds, 32 shapes, 4,096 template words, 1,024 cards, 8,192 links and 1,024 bookings.
pub fn limits(random: &mut Random) -> Files {
    let template = full_template(random);
    let mut script = scripts::derived(random, &template, FULL);
    script = fill_script(random, &script);
    let words = template::write(&template);
    let booking_words = match Setting::read(&words, &script) {
        Ok(setting) => {
            let list = any_bookings(random, &setting, MOST_BOOKINGS);
            fill_bookings(&setting, &list)
        }
        Err(refusal) => panic!("the sheet at its limits has a fault, {refusal}"),
    };
    Files {
        template: words,
        script,
        bookings: booking_words,
    }
}

/// A template with all kinds and shapes, and a last shape that fills up the words.
fn full_template(random: &mut Random) -> Template {
    let mut template = any_template(random, FULL);
    template.kinds = MOST_KINDS;
    let nothing = Definition::closed(Part::Nothing);
    template.definitions.resize(usize::from(MOST_SHAPES) - 2, nothing);
    // A shape that names each label and takes any links, so that not all pairs are struck.
    let links = Label::all(MOST_KINDS).map(|label| Part::link(label, Shape(MOST_SHAPES - 2), 0, None));
    for part in [Part::all_of(links.collect()), Part::Nothing] {
        let open = random.chance(1, 4);
        template.definitions.push(Definition { open, part });
    }
    // If the words don't suffice, the longest of the random shapes go.
    while template::write(&template).len() > MOST_WORDS - 1 {
        let random_shapes = &mut template.definitions[..usize::from(MOST_SHAPES) - 2];
        if let Some(longest) = random_shapes.iter_mut().max_by_key(|shape| shape.words().len()) {
            longest.part = Part::Nothing;
        }
    }
    let missing = MOST_WORDS - template::write(&template).len();
    template.definitions[usize::from(MOST_SHAPES) - 1].part = filler(1 + missing);
    template
}

/// The script with all its cards and random links up to the limit.
fn fill_script(random: &mut Random, script: &[u16]) -> Vec<u16> {
    let mut links = scripts::links(script);
    while links.len() < usize::from(MOST_LINKS) {
        let (from, to) = (random.word(0, MOST_CARDS - 1), random.word(0, MOST_CARDS - 1));
        links.insert((from, random.word(0, MOST_KINDS - 1), to));
    }
    scripts::words(MOST_CARDS, &links)
}

/// The bookings and then one card after the other, by the radio and the television in turn, for the shape that takes
/// any links, up to the limit.
fn fill_bookings(setting: &Setting, booked: &[Booking]) -> Vec<u16> {
    let any_links = setting.cards().map(|card| (card, Shape(MOST_SHAPES - 2)));
    let any_links = Desk::BOTH.into_iter().cycle().zip(any_links);
    let all = booked.iter().copied().chain(any_links);
    let different: Vec<Booking> = all.filter(bookings::firsts(setting)).collect();
    bookings::words(&different[..usize::from(MOST_BOOKINGS)])
}
