//! Sheets with cards that are alike or nearly so, the same in every run. The last shape of a sheet is for every card,
//! and all links ask for it, so each pair is a matter of counts.

use crate::generate::parts::{incoming, outgoing};
use crate::generate::runs::{sheet, Runs};
use crate::generate::Case;
use crate::sheet::Files;
use crate::template::{Definition, Part, MOST_KINDS};

/// The kinds of the links that start at each card, and a name for how these differ.
const CARDS: [(&str, &[&[u16]]); 5] = [
    ("all", &[&[0, 1], &[0, 1], &[0, 1], &[0, 1], &[0, 1], &[0, 1]]),
    (
        "numbers",
        &[
            &[0, 0, 1],
            &[0, 1, 1],
            &[0, 0, 1],
            &[0, 1, 1],
            &[0, 1],
            &[0, 0, 1, 1],
            &[0, 0, 1],
        ],
    ),
    (
        "one-more",
        &[
            &[0, 1],
            &[0, 1, 2],
            &[0, 1],
            &[0, 1, 1],
            &[0, 1, 2],
            &[0],
            &[0, 1, 63],
            &[],
            &[0, 1],
        ],
    ),
    (
        "first",
        &[
            &[0, 2, 3],
            &[1, 2, 3],
            &[0, 2, 3],
            &[2, 2, 3],
            &[2, 3],
            &[1, 2, 3],
        ],
    ),
    (
        "marks",
        &[
            &[7, 7],
            &[22, 60],
            &[47],
            &[14, 52],
            &[],
            &[0, 48, 50],
            &[8, 8, 50],
            &[14, 52],
            &[47],
            &[7, 7],
        ],
    ),
];

/// Makes a shape for cards with links of these kinds.
type Make = fn(&[u16]) -> Definition;

/// The ways to make shapes, with their names.
const SHAPES: [(&str, Make); 6] = [
    ("flat", flat),
    ("star", star),
    ("groups", groups),
    ("choice", choice),
    ("open", open),
    ("arriving", arriving),
];

/// All of these sheets, as inputs.
pub fn fixed() -> Vec<Case> {
    let case = |(name, files): (String, Files)| Case {
        name,
        bytes: files.bytes(),
    };
    sheets().into_iter().map(case).collect()
}

/// All of these sheets, with their names: for each list of cards and each way to make shapes, a shape for each kinds
/// of the list.
pub fn sheets() -> Vec<(String, Files)> {
    let mut sheets = Vec::new();
    for (differing, cards) in CARDS {
        let mut distinct = cards.to_vec();
        distinct.sort();
        distinct.dedup();
        let runs: Vec<Vec<(u16, u16)>> = cards.iter().map(|kinds| runs(kinds)).collect();
        let cards: Vec<Runs> = runs.iter().map(Vec::as_slice).collect();
        for (name, make) in SHAPES {
            let shapes = distinct.iter().map(|kinds| make(kinds)).collect();
            let files = sheet(MOST_KINDS, shapes, &cards, (1, 0));
            sheets.push((format!("alike-{differing}-{name}"), files));
        }
    }
    sheets
}

/// How often each of these kinds is there.
fn runs(kinds: &[u16]) -> Vec<(u16, u16)> {
    let runs = kinds.chunk_by(|one, next| one == next);
    runs.map(|run| (run[0], run.len() as u16)).collect()
}

/// A link for each of these kinds that takes as many as there are.
fn links(kinds: &[u16]) -> Vec<Part> {
    let link = |(kind, count)| outgoing(kind, 0, count, Some(count));
    runs(kinds).into_iter().map(link).collect()
}

/// An all of links.
fn flat(kinds: &[u16]) -> Definition {
    Definition::closed(Part::all_of(links(kinds)))
}

/// A star over an all of links.
fn star(kinds: &[u16]) -> Definition {
    Definition::closed(Part::Star(Box::new(Part::all_of(links(kinds)))))
}

/// The first link, and an all of the others.
fn apart(kinds: &[u16]) -> [Part; 2] {
    let mut first = links(kinds);
    let others = first.split_off(first.len().min(1));
    [first, others].map(Part::all_of)
}

/// An all of two stars, over the first link and over the others.
fn groups(kinds: &[u16]) -> Definition {
    let stars = apart(kinds).map(|part| Part::Star(Box::new(part)));
    Definition::closed(Part::All(stars.into()))
}

/// A plus over a choice of the first link and the others.
fn choice(kinds: &[u16]) -> Definition {
    Definition::closed(Part::Plus(Box::new(Part::Choice(apart(kinds).into()))))
}

/// An open shape that names the last kind alone.
fn open(kinds: &[u16]) -> Definition {
    Definition::open(links(kinds).pop().unwrap_or(Part::Nothing))
}

/// An all of links, and of one link of the first kind that arrives.
fn arriving(kinds: &[u16]) -> Definition {
    let mut parts = links(kinds);
    parts.extend(kinds.first().map(|kind| incoming(*kind, 0, 1, Some(1))));
    Definition::closed(Part::all_of(parts))
}
