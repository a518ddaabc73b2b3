//! Whose the bookings are, the same in every run: each desk met and not met, a pair booked by both, desks that there
//! are not, every order of faults within a booking, the limit shared by both desks, and stored lists.

use super::arriving::GUESTS;
use super::open::{ONE_MORE, TOLERANT};
use super::special::{document, nothings};
use super::stored::without_desks;
use super::Case;
use crate::sheet::Files;
use crate::typing::bookings::MOST_BOOKINGS;

/// The inputs of these sheets.
pub fn fixed() -> Vec<Case> {
    let case = |(name, files): (String, Files)| Case {
        name: format!("desks-{name}"),
        bytes: files.bytes(),
    };
    sheets().into_iter().map(case).collect()
}

/// The sheets, each with its name.
pub fn sheets() -> Vec<(String, Files)> {
    let lists = [
        SAMPLES.map(<[u16]>::to_vec).into(),
        wrong_desks(),
        faults(),
        stored(),
    ]
    .concat();
    let numbered = lists.into_iter().enumerate();
    let worked = numbered.map(|(number, list)| (number.to_string(), document(&list)));
    worked.chain(others()).chain(most()).collect()
}

/// Lists for the worked sheet: card 2 can be met as shape 1, card 0 can't be met as shape 0.
const SAMPLES: [&[u16]; 28] = [
    // Each desk alone, met and not met.
    &[1, 0, 2, 1],
    &[1, 1, 2, 1],
    &[1, 0, 0, 0],
    &[1, 1, 0, 0],
    // Both met, one of them, none; in either order.
    &[2, 0, 2, 1, 1, 2, 1],
    &[2, 1, 2, 1, 0, 2, 1],
    &[2, 0, 2, 1, 1, 0, 0],
    &[2, 0, 0, 0, 1, 2, 1],
    &[2, 1, 2, 1, 0, 0, 0],
    &[2, 1, 0, 0, 0, 2, 1],
    &[2, 0, 0, 0, 1, 0, 0],
    // Not met at different pairs.
    &[2, 0, 2, 0, 1, 1, 1],
    &[2, 1, 2, 0, 0, 1, 1],
    &[4, 0, 2, 1, 1, 2, 0, 0, 1, 0, 1, 2, 1],
    // A desk books a pair again: at once, behind the other desk's, after a booking of each.
    &[2, 0, 2, 1, 0, 2, 1],
    &[2, 1, 2, 1, 1, 2, 1],
    &[3, 0, 2, 1, 1, 2, 1, 0, 2, 1],
    &[3, 0, 2, 1, 1, 2, 1, 1, 2, 1],
    &[4, 0, 2, 1, 1, 2, 1, 1, 0, 0, 0, 0, 0],
    &[4, 0, 2, 1, 1, 0, 0, 0, 0, 0, 1, 0, 0],
    &[4, 1, 2, 1, 0, 0, 0, 1, 0, 0, 1, 2, 1],
    // The words of a booking across two others.
    &[3, 0, 0, 1, 0, 1, 0, 1, 0, 1],
    &[3, 0, 1, 0, 1, 0, 1, 0, 0, 1],
    // A list that is a word or a booking too long or too short.
    &[1, 0, 2],
    &[1, 0, 2, 1, 1],
    &[2, 0, 2, 1, 1, 2],
    &[1, 0, 2, 1, 1, 2, 1],
    &[2, 0, 2, 1],
];

/// Desks around the limit, in the first and in the second booking.
fn wrong_desks() -> Vec<Vec<u16>> {
    let mut lists = vec![vec![1, 2, 9, 9]];
    for desk in [0, 1, 2, 3, 255, 256, 257, 65534, 65535] {
        lists.push(vec![1, desk, 2, 1]);
        lists.push(vec![2, 0, 2, 1, desk, 1, 1]);
    }
    lists
}

/// Each choice of faults in the first booking and in the second: its desk, its card and its shape; the second one, if
/// it has none of these, repeats the first. And a fault in one booking before another fault in the next.
fn faults() -> Vec<Vec<u16>> {
    let (right, wrong) = ([0, 2, 1], [2, 3, 2]);
    let booking = |faults: usize| {
        let word = |place: usize| match faults >> place & 1 {
            0 => right[place],
            _ => wrong[place],
        };
        [word(0), word(1), word(2)]
    };
    let mut lists = Vec::new();
    for faults in 0..8 {
        lists.push([vec![2], booking(faults).to_vec(), vec![2, 9, 9]].concat());
        lists.push([vec![2], right.to_vec(), booking(faults).to_vec()].concat());
    }
    let nexts = [[0, 2, 1], [2, 0, 0], [1, 3, 0], [1, 0, 2]];
    for first in nexts {
        for second in nexts {
            lists.push([vec![3], right.to_vec(), first.to_vec(), second.to_vec()].concat());
        }
    }
    lists
}

/// Stored lists, which have two words a booking: with one booking, with several, with a repeat, and without any.
fn stored() -> Vec<Vec<u16>> {
    vec![
        vec![1, 2, 1],
        vec![1, 0, 0],
        vec![2, 2, 1, 0, 0],
        vec![3, 2, 1, 0, 0, 2, 1],
        vec![6, 0, 0, 0, 1, 1, 0, 1, 1, 2, 0, 2, 1],
        vec![0],
    ]
}

/// Links that arrive and open shapes, with bookings of each desk.
fn others() -> Vec<(String, Files)> {
    let files = |template: &[u16], script: &[u16], bookings: &[u16]| Files {
        template: template.to_vec(),
        script: script.to_vec(),
        bookings: bookings.to_vec(),
    };
    let row = |name: &str, files: Files| (name.to_string(), files);
    vec![
        row("guests", files(&GUESTS, &[2, 1, 0, 0, 1], &[1, 1, 1, 1])),
        row(
            "guests-both",
            files(&GUESTS, &[3, 1, 0, 0, 1], &[2, 0, 0, 0, 1, 2, 1]),
        ),
        row("open", files(&TOLERANT, &ONE_MORE, &[2, 1, 0, 0, 0, 2, 1])),
        row("no-cards", files(&nothings(1), &[0, 0], &[0])),
        row("no-cards-booked", files(&nothings(1), &[0, 0], &[1, 2, 0, 0])),
    ]
}

/// As many bookings as can be, shared by both desks, on a few cards with all shapes: in turn, first one desk's and then
/// the other's, each pair by both; the last one by the same desk again; one more; and a stored list.
fn most() -> Vec<(String, Files)> {
    const HALF: u16 = MOST_BOOKINGS / 2;
    let sheet = |bookings: Vec<u16>| Files {
        template: nothings(32),
        script: vec![32, 0],
        bookings,
    };
    let list = |count: u16, booking: fn(u16) -> (u16, u16)| {
        let words = |number: u16| {
            let (desk, pair) = booking(number);
            [desk, pair / 32, pair % 32]
        };
        let words = (0..count).flat_map(words);
        [count].into_iter().chain(words).collect::<Vec<u16>>()
    };
    let in_turn = list(MOST_BOOKINGS, |number| (number % 2, number));
    let by_both = list(MOST_BOOKINGS, |number| (number / HALF, number % HALF));
    let last_again = list(MOST_BOOKINGS, |number| {
        (number % 2, number.min(MOST_BOOKINGS - 3))
    });
    let one_more = list(MOST_BOOKINGS + 1, |number| (number % 2, number % MOST_BOOKINGS));
    let lists = [
        ("stored", without_desks(&in_turn)),
        ("in-turn", in_turn),
        ("by-both", by_both),
        ("last-again", last_again),
        ("one-more", one_more),
    ];
    let named = |(name, list): (&str, Vec<u16>)| (format!("most-{name}"), sheet(list));
    lists.map(named).into()
}
