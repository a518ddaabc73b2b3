//! How often pairs stand in a stored list and where: on sheets whose bookings are met and not met, with buffers that
//! fit or don't, and at the limit.

use super::{room, TidyCase};
use crate::generate::arriving::GUESTS;
use crate::generate::open::{ONE_MORE, TOLERANT};
use crate::generate::special::{chain, document, nothings};
use crate::sheet::Files;
use crate::template::MOST_SHAPES;
use crate::typing::bookings::MOST_BOOKINGS;
use std::collections::BTreeSet;

/// All of these lists.
pub fn lists() -> Vec<TidyCase> {
    [buffers(), small(), sheets(), most()].concat()
}

/// Buffers around the right length, and of the stored and the tidied list's length: of a list without bookings, of one
/// without repeats, and of ones that lose bookings.
fn buffers() -> Vec<TidyCase> {
    let lists: [&[u16]; 4] = [
        &[0],
        &[2, 2, 1, 0, 0],
        &[2, 2, 1, 2, 1],
        &[4, 0, 1, 0, 1, 0, 1, 0, 1],
    ];
    let mut cases = Vec::new();
    for (number, list) in lists.into_iter().enumerate() {
        let (length, right) = (list.len(), room(list));
        // The tidied list may have four words or seven: they aren't enough if the buffer has to have more.
        for words in BTreeSet::from([0, 1, 4, 7, length, right - 1, right, right + 1, 2 * right]) {
            cases.push(TidyCase {
                name: format!("buffer-{number}-{words}"),
                files: document(list),
                words,
            });
        }
    }
    cases
}

/// Lists of a few pairs of the worked sheet: side by side, in turn, there and back, and with one that stands once.
fn small() -> Vec<TidyCase> {
    let lists: [&[u16]; 10] = [
        &[4, 2, 1, 2, 1, 0, 0, 0, 0],
        &[4, 2, 1, 0, 0, 2, 1, 0, 0],
        &[4, 2, 1, 0, 0, 0, 0, 2, 1],
        &[5, 2, 1, 2, 1, 2, 1, 2, 1, 0, 0],
        &[5, 0, 0, 2, 1, 2, 1, 2, 1, 2, 1],
        &[5, 2, 1, 2, 1, 0, 0, 2, 1, 2, 1],
        &[3, 2, 1, 2, 0, 2, 1],
        &[3, 2, 1, 1, 1, 2, 1],
        &[6, 0, 0, 0, 1, 1, 0, 1, 1, 0, 1, 1, 0],
        &[1, 2, 1],
    ];
    let case = |(number, list): (usize, &[u16])| TidyCase::new(format!("small-{number}"), document(list));
    lists.into_iter().enumerate().map(case).collect()
}

/// Other sheets: links that arrive, open shapes, no cards, a ring whose bookings are met and a chain whose aren't.
fn sheets() -> Vec<TidyCase> {
    let files = |template: &[u16], script: &[u16], bookings: &[u16]| Files {
        template: template.to_vec(),
        script: script.to_vec(),
        bookings: bookings.to_vec(),
    };
    let booked = |mut files: Files| {
        files.bookings = vec![3, 4, 0, 8, 0, 4, 0];
        files
    };
    vec![
        TidyCase::new("guests", files(&GUESTS, &[2, 1, 0, 0, 1], &[3, 1, 1, 0, 0, 1, 1])),
        TidyCase::new("open", files(&TOLERANT, &ONE_MORE, &[3, 0, 0, 0, 0, 2, 1])),
        TidyCase::new("no-cards", files(&nothings(1), &[0, 0], &[0])),
        TidyCase::new("no-cards-booked", files(&nothings(1), &[0, 0], &[2, 0, 0, 0, 0])),
        TidyCase::new("ring", booked(chain(9, true))),
        TidyCase::new("chain", booked(chain(9, false))),
    ]
}

/// Half as many pairs as there can be bookings.
const HALF: u16 = MOST_BOOKINGS / 2;

/// A name, and which pair a booking is for, by their numbers. Pairs are numbered card by card.
type Way = (&'static str, fn(u16) -> u16);

/// As many bookings as can be. Each pair stands there twice: side by side, in turn, or there and back; or the pairs of
/// one card, or of one shape, stand there often.
fn most() -> Vec<TidyCase> {
    let ways: [Way; 6] = [
        ("side-by-side", |number| number / 2),
        ("in-turn", |number| number % HALF),
        ("there-and-back", |number| number.min(MOST_BOOKINGS - 1 - number)),
        ("card", |number| number % MOST_SHAPES),
        ("card-side-by-side", |number| number / MOST_SHAPES),
        ("shape", |number| number * MOST_SHAPES % HALF),
    ];
    let case = |(name, pair): Way| {
        let booking = |number: u16| [pair(number) / MOST_SHAPES, pair(number) % MOST_SHAPES];
        let words = (0..MOST_BOOKINGS).flat_map(booking);
        let files = Files {
            template: nothings(MOST_SHAPES),
            script: vec![HALF / MOST_SHAPES, 0],
            bookings: [MOST_BOOKINGS].into_iter().chain(words).collect(),
        };
        TidyCase::new(format!("most-{name}"), files)
    };
    ways.map(case).into()
}
