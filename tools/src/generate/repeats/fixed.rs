//! Booking lists in which a desk books a pair twice, or nearly so, the same in every run: next to each other and far
//! apart, at the limit, and beside other faults.

use crate::generate::special::{document, nothings};
use crate::generate::stored::with_desk;
use crate::generate::Case;
use crate::numbers::{Card, Shape};
use crate::script::MOST_CARDS;
use crate::sheet::Files;
use crate::template::MOST_SHAPES;
use crate::typing::bookings::{self, MOST_BOOKINGS};
use crate::typing::Pair;

/// The name and the words of a stored list for the worked sheet; each becomes a booking list of one desk.
type List = (&'static str, &'static [u16]);

/// A pair stands twice, and nothing else is wrong.
const TWICE: [List; 8] = [
    ("next", &[2, 2, 1, 2, 1]),
    ("far", &[3, 2, 1, 0, 0, 2, 1]),
    ("not-met", &[2, 0, 0, 0, 0]),
    ("thrice", &[3, 2, 1, 2, 1, 2, 1]),
    ("two-pairs", &[4, 2, 1, 0, 0, 0, 0, 2, 1]),
    ("of-second", &[3, 2, 1, 0, 0, 0, 0]),
    ("each-and-first", &[7, 0, 0, 0, 1, 1, 0, 1, 1, 2, 0, 2, 1, 0, 0]),
    ("each-and-last", &[7, 0, 0, 0, 1, 1, 0, 1, 1, 2, 0, 2, 1, 2, 1]),
];

/// No pair stands twice: a card with two shapes, a shape with two cards, a card's number as a shape, and the words of
/// a pair once as a booking and once across two.
const NEARLY: [List; 6] = [
    ("no-other-shape", &[2, 0, 0, 0, 1]),
    ("no-other-shape-back", &[2, 2, 1, 2, 0]),
    ("no-other-card", &[2, 1, 1, 2, 1]),
    ("no-turned", &[2, 0, 1, 1, 0]),
    ("no-across", &[3, 0, 1, 1, 0, 1, 1]),
    ("no-each", &[6, 0, 0, 0, 1, 1, 0, 1, 1, 2, 0, 2, 1]),
];

/// A repeat before, behind and around a booking with a wrong card or a wrong shape; and such a booking twice.
const FAULTS: [List; 9] = [
    ("then-32", &[3, 2, 1, 2, 1, 3, 0]),
    ("then-33", &[3, 2, 1, 2, 1, 2, 2]),
    ("then-both", &[3, 2, 1, 2, 1, 9, 9]),
    ("after-32", &[3, 3, 0, 2, 1, 2, 1]),
    ("after-33", &[3, 2, 2, 2, 1, 2, 1]),
    ("around-32", &[3, 2, 1, 3, 1, 2, 1]),
    ("around-33", &[3, 2, 1, 2, 2, 2, 1]),
    ("of-32", &[2, 3, 0, 3, 0]),
    ("of-33", &[2, 2, 2, 2, 2]),
];

/// A repeat in a list whose size is wrong.
const SIZES: [List; 5] = [
    ("word-more", &[2, 2, 1, 2, 1, 0]),
    ("word-less", &[2, 2, 1, 2]),
    ("count-under", &[1, 2, 1, 2, 1]),
    ("count-over", &[3, 2, 1, 2, 1]),
    ("count-1025", &[1025, 2, 1, 2, 1]),
];

/// The inputs with these lists.
pub fn fixed() -> Vec<Case> {
    let case = |(name, files): (String, Files)| Case {
        name,
        bytes: files.bytes(),
    };
    sheets().into_iter().map(case).collect()
}

/// The sheets with these lists, for the radio; those with nothing else wrong for the television too.
pub fn sheets() -> Vec<(String, Files)> {
    let booked = |desk: u16| {
        move |(name, words): List| {
            let name = format!("repeat-{}-{name}", ["radio", "television"][usize::from(desk)]);
            (name, document(&with_desk(desk, words)))
        }
    };
    let television = TWICE.into_iter().chain(NEARLY).map(booked(1));
    let radio = lists().map(booked(0));
    radio
        .chain(television)
        .chain(refused(&with_desk(0, &[2, 2, 1, 2, 1])))
        .chain(most().into_iter().map(|(name, files)| (name, desked(files))))
        .collect()
}

/// The sheets with these lists as stored ones.
pub fn stored() -> Vec<(String, Files)> {
    lists()
        .map(|(name, words)| (format!("repeat-{name}"), document(words)))
        .chain(refused(&[2, 2, 1, 2, 1]))
        .chain(most())
        .collect()
}

fn lists() -> impl Iterator<Item = List> {
    TWICE.into_iter().chain(NEARLY).chain(FAULTS).chain(SIZES)
}

/// The sheet with its stored list for a desk: the radio if it has two shapes, the television if it has more.
fn desked(files: Files) -> Files {
    let desk = u16::from(files.template[1] > 2);
    Files {
        bookings: with_desk(desk, &files.bookings),
        ..files
    }
}

/// This list with a repeat, where the template or the script is refused, for its first word or at its end.
fn refused(list: &[u16]) -> [(String, Files); 4] {
    let sheet = document(list);
    let with_template = |template| Files {
        template,
        ..sheet.clone()
    };
    let with_script = |script| Files {
        script,
        ..sheet.clone()
    };
    [
        ("template", with_template(vec![0, 0])),
        (
            "template-end",
            with_template([&sheet.template[..], &[0]].concat()),
        ),
        ("script", with_script(vec![MOST_CARDS + 1, 0])),
        ("script-end", with_script([&sheet.script[..], &[0]].concat())),
    ]
    .map(|(name, files)| (format!("repeat-refused-{name}"), files))
}

/// Stored lists of as many bookings as can be, on many cards with two shapes and on a few cards with as many shapes as
/// can be: all different, with the last or the second one a repeat, all alike, and one more.
fn most() -> Vec<(String, Files)> {
    let mut sheets = Vec::new();
    for (what, shapes) in [("cards", 2), ("shapes", MOST_SHAPES)] {
        let pair = |number: u16| (Card(number / shapes), Shape(number % shapes));
        let each: Vec<Pair> = (0..MOST_BOOKINGS).map(pair).collect();
        let (first, last) = (each[0], each.len() - 1);
        let with = |place: usize, pair: Pair| {
            let mut list = each.clone();
            list[place] = pair;
            list
        };
        let lists = [
            ("each", each.clone()),
            ("last-of-first", with(last, first)),
            ("last-of-next", with(last, each[last - 1])),
            ("second", with(1, first)),
            ("all", vec![each[last]; each.len()]),
            ("one-more", [&each[..], &[first]].concat()),
        ];
        sheets.extend(lists.map(|(name, list)| {
            let files = Files {
                template: nothings(shapes),
                script: vec![MOST_BOOKINGS / shapes, 0],
                bookings: bookings::stored_words(&list),
            };
            (format!("repeat-most-{what}-{name}"), files)
        }));
    }
    sheets
}
