//! Sheets about counting the links of a card, the same in every run. The links of one kind that start at one card are
//! a *run*. The last shape of a sheet is for every card, and all links ask for it, so each pair is a matter of
//! counts. `most` has the longest runs.

pub mod most;

use super::parts::{incoming, outgoing};
use super::scripts::{self, Links};
use super::Case;
use crate::desk::Desk;
use crate::numbers::{Card, Shape};
use crate::sheet::Files;
use crate::template::{self, Definition, Link, Part, Template, MOST_COUNT, MOST_KINDS};
use crate::typing::bookings;

/// The runs of a card: kinds, and how many links of each start there.
pub type Runs<'a> = &'a [(u16, u16)];

/// All of these sheets.
pub fn runs() -> Vec<Case> {
    let sheets = [small(), most::most()].concat();
    let case = |(name, files): (String, Files)| Case {
        name,
        bytes: files.bytes(),
    };
    sheets.into_iter().map(case).collect()
}

/// The small ones, with their names.
pub fn small() -> Vec<(String, Files)> {
    [
        under_wraps(),
        vec![unnamed(), first_and_last(), both_ways(), bounds()],
    ]
    .concat()
}

/// A sheet with these shapes and the last one, these cards, and one booking. The links of a run lead to the cards that
/// come next, in a ring.
pub fn sheet(kinds: u16, shapes: Vec<Definition>, cards: &[Runs], booked: (u16, u16)) -> Files {
    let last = Shape(shapes.len() as u16);
    let to_last = |link: Link| Link { shape: last, ..link };
    let mut definitions: Vec<Definition> = shapes
        .iter()
        .map(|shape| Definition {
            part: shape.part.with_links(&to_last),
            ..*shape
        })
        .collect();
    definitions.push(Definition::open(Part::Nothing));
    let number = cards.len() as u16;
    let mut links = Links::new();
    for (card, runs) in (0..).zip(cards) {
        for (kind, length) in *runs {
            links.extend((1..=*length).map(|step| (card, *kind, (card + step) % number)));
        }
    }
    Files {
        template: template::write(&Template { kinds, definitions }),
        script: scripts::words(number, &links),
        bookings: bookings::words(&[(Desk::Radio, (Card(booked.0), Shape(booked.1)))]),
    }
}

fn star(part: Part) -> Part {
    Part::Star(Box::new(part))
}

fn plus(part: Part) -> Part {
    Part::Plus(Box::new(part))
}

fn optional(part: Part) -> Part {
    Part::Optional(Box::new(part))
}

/// Flat parts of kinds 0 to 3, and then three that are nearly flat.
fn parts() -> Vec<Part> {
    let link = |kind| move |low, high| outgoing(kind, 0, low, high);
    let [a, b, c, d] = [link(0), link(1), link(2), link(3)];
    let all = Part::All;
    vec![
        // Kinds in descending order; and interleaved in alls within an all, which takes the empty bag.
        all(vec![d(0, Some(1)), c(1, Some(1)), b(1, Some(2)), a(1, Some(2))]),
        all(vec![
            all(vec![c(0, Some(2)), a(0, Some(2))]),
            all(vec![d(0, None), b(0, Some(1))]),
        ]),
        // Of the only kind that is taken the links stand in the last part.
        all(vec![
            Part::Nothing,
            all(vec![c(0, Some(0)), a(0, Some(0))]),
            d(1, Some(2)),
        ]),
        all(vec![b(0, None), a(2, None), d(0, Some(MOST_COUNT))]),
        a(1, Some(2)),
        Part::Nothing,
        // An optional, a star and a choice within an all.
        all(vec![d(0, Some(4)), optional(b(1, Some(1))), a(1, Some(2))]),
        all(vec![star(c(1, Some(1))), b(0, Some(1)), a(0, Some(1))]),
        all(vec![
            d(0, Some(1)),
            Part::Choice(vec![b(1, Some(1)), c(1, Some(2))]),
            a(0, Some(1)),
        ]),
    ]
}

/// Cards without links first and between, and the last links from the last card; and such cards last, and the last
/// links from another.
const CARDS: [[Runs; 10]; 2] = [
    [
        &[],
        &[(0, 1)],
        &[(0, 2)],
        &[(0, 1), (2, 2)],
        &[(0, 1), (1, 1), (2, 1), (3, 1)],
        &[(0, 2), (1, 2), (2, 2), (3, 2)],
        &[],
        &[(0, 2), (1, 1), (3, 4)],
        &[(1, 1), (2, 2)],
        &[(3, 2)],
    ],
    [
        &[(3, 1)],
        &[(0, 4), (1, 2), (2, 2)],
        &[(0, 1), (3, 1)],
        &[],
        &[(0, 2), (1, 1), (2, 1), (3, 1)],
        &[(1, 1)],
        &[(0, 1), (2, 2), (3, 3)],
        &[(0, 1), (1, 2), (2, 1)],
        &[],
        &[],
    ],
];

/// The parts under no star, plus or optional, under each and under each two, as closed shapes; and under none and each
/// as open ones.
fn under_wraps() -> Vec<(String, Files)> {
    let wraps = [
        ("star", star as fn(Part) -> Part),
        ("plus", plus),
        ("optional", optional),
    ];
    let mut sheets = Vec::new();
    let mut push = |name: String, wrap: &dyn Fn(Part) -> Part, shape: fn(Part) -> Definition| {
        let shapes: Vec<Definition> = parts().into_iter().map(|part| shape(wrap(part))).collect();
        let cards = &CARDS[usize::from(shapes[0].open)];
        let booked = (4, sheets.len() as u16 % 4);
        sheets.push((format!("runs-{name}"), sheet(4, shapes, cards, booked)));
    };
    push("plain".to_string(), &|part| part, Definition::closed);
    push("open".to_string(), &|part| part, Definition::open);
    for (outer, wrap) in wraps {
        push(outer.to_string(), &wrap, Definition::closed);
        push(format!("{outer}-open"), &wrap, Definition::open);
        for (inner, within) in wraps {
            push(
                format!("{outer}-{inner}"),
                &|part| wrap(within(part)),
                Definition::closed,
            );
        }
    }
    sheets
}

/// Shapes that name kinds 1, 3 and 5, and cards with these runs and with runs of each choice of the kinds before,
/// between and after; two cards more have a link too many and one too few.
fn unnamed() -> (String, Files) {
    let link = |kind: u16| outgoing(kind, 0, kind / 2, Some(kind / 2 + 1));
    let named = || Part::All([5, 1, 3].map(link).into());
    let nearly = Part::All(vec![link(3), optional(link(5)), star(link(1))]);
    let mut shapes: Vec<Definition> = [named(), star(named()), plus(named()), optional(named()), nearly]
        .map(Definition::open)
        .into();
    shapes.push(Definition::closed(named()));
    shapes.push(Definition::open(star(link(3))));
    let card = |bits: usize, fives: u16| {
        let others = (0..4)
            .filter(|bit| bits >> bit & 1 == 1)
            .map(|bit| (2 * bit as u16, 1));
        let named = [(1, 1), (3, 2), (5, fives)];
        others.chain(named).collect::<Vec<(u16, u16)>>()
    };
    let mut cards: Vec<Vec<(u16, u16)>> = (0..16).map(|bits| card(bits, 2)).collect();
    cards.extend([card(15, 4), card(15, 1)]);
    let cards: Vec<Runs> = cards.iter().map(Vec::as_slice).collect();
    ("runs-unnamed".to_string(), sheet(7, shapes, &cards, (15, 2)))
}

/// The first kind and the last, in either order, alone, and with others between them.
fn first_and_last() -> (String, Files) {
    let last = MOST_KINDS - 1;
    let link = |kind: u16, low: u16, high: u16| outgoing(kind, 0, low, Some(high));
    let both = |first: u16, second: u16| Part::All(vec![link(first, 1, 2), link(second, 1, 2)]);
    let shapes = vec![
        Definition::closed(both(0, last)),
        Definition::closed(both(last, 0)),
        Definition::closed(star(both(last, 0))),
        Definition::closed(Part::All(vec![link(last, 0, 2), link(0, 0, 0)])),
        Definition::closed(optional(link(last, 1, 1))),
        Definition::open(plus(link(0, 0, 1))),
        Definition::open(both(last, 0)),
        Definition::closed(Part::All(vec![
            link(31, 0, 1),
            incoming(last, 0, 0, None),
            link(0, 1, 1),
        ])),
    ];
    let cards: [Runs; 7] = [
        &[(0, 1)],
        &[(last, 1)],
        &[(0, 1), (last, 1)],
        &[],
        &[(0, 3), (last, 5)],
        &[(0, 1), (31, 1), (last, 2)],
        &[(last, 2)],
    ];
    (
        "runs-first-and-last".to_string(),
        sheet(MOST_KINDS, shapes, &cards, (2, 1)),
    )
}

/// Links that arrive, named before, between and after those that start.
fn both_ways() -> (String, Files) {
    let out = |kind: u16, low: u16, high| outgoing(kind, 0, low, high);
    let back = |kind: u16, low: u16, high| incoming(kind, 0, low, high);
    let all = Part::All;
    let mixed = || {
        all(vec![
            back(1, 0, Some(2)),
            out(2, 0, Some(2)),
            all(vec![back(0, 1, None), out(0, 0, Some(2))]),
            out(1, 0, Some(1)),
        ])
    };
    let shapes = [
        mixed(),
        star(mixed()),
        plus(all(vec![out(1, 1, Some(1)), back(1, 1, Some(1))])),
        optional(all(vec![back(0, 1, Some(1)), out(0, 1, Some(1))])),
        all(vec![back(2, 0, Some(0)), out(2, 0, None), out(0, 0, None)]),
        all(vec![
            out(0, 0, Some(2)),
            Part::Choice(vec![back(0, 1, Some(2)), out(1, 1, Some(1))]),
        ]),
        back(2, 1, Some(1)),
    ];
    let shapes = shapes.map(Definition::closed).into();
    let cards: [Runs; 6] = [
        &[(0, 1)],
        &[(0, 2), (1, 1)],
        &[],
        &[(0, 6), (2, 2)],
        &[(1, 1)],
        &[(1, 2), (2, 1)],
    ];
    ("runs-both-ways".to_string(), sheet(3, shapes, &cards, (1, 1)))
}

/// Runs of 0 to 8 links of one kind, and bounds that take some of them.
fn bounds() -> (String, Files) {
    let link = |low: u16, high: Option<u16>| outgoing(0, 0, low, high);
    let shapes = [
        link(0, Some(0)),
        link(0, None),
        link(1, None),
        link(2, Some(2)),
        link(3, Some(MOST_COUNT)),
        link(MOST_COUNT, Some(MOST_COUNT)),
        link(9, None),
        star(link(2, Some(2))),
        plus(link(3, Some(4))),
        plus(link(0, Some(0))),
        star(link(MOST_COUNT, None)),
        optional(link(3, Some(3))),
        plus(optional(link(5, Some(5)))),
        star(plus(link(3, Some(3)))),
        optional(star(link(4, Some(7)))),
    ];
    let runs: Vec<[(u16, u16); 1]> = (0..9).map(|length| [(0, length)]).collect();
    let cards: Vec<Runs> = runs.iter().map(|run| run.as_slice()).collect();
    let shapes = shapes.map(Definition::closed).into();
    ("runs-bounds".to_string(), sheet(1, shapes, &cards, (6, 13)))
}
