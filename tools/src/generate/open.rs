//! Sheets about open shapes, the same in every run: the links that they ignore, shapes open and closed that ask for
//! each other, links that arrive, counts, and all labels in one shape.

use super::arriving::{all_labels, case};
use super::{counted, heavy, Case};
use crate::samples;
use crate::template::Definition;

/// Two kinds and two shapes: an open one that wants one link of kind 0 to the other, which is nothing (docs/FORMAT.md).
pub const TOLERANT: [u16; 10] = [2, 2, 5, 18, 256, 1, 1, 1, 1, 0];
/// The same with both shapes closed.
pub const STRICT: [u16; 9] = [2, 2, 4, 256, 1, 1, 1, 1, 0];
/// A script for both, in which card 0 has a link of kind 1 too (docs/FORMAT.md).
pub const ONE_MORE: [u16; 8] = [3, 2, 0, 0, 1, 0, 1, 2];
/// One open shape, which names no kind and takes every card.
pub const ANY: [u16; 5] = [1, 1, 2, 18, 0];
/// Items and guests, both open: items may have other links, and so may guests.
pub const OPEN_GUESTS: [u16; 14] = [2, 2, 5, 18, 256, 1, 1, 65535, 5, 18, 320, 0, 1, 65535];

/// All of these sheets.
pub fn open() -> Vec<Case> {
    let lists = [
        one_more(),
        any(),
        each_other(),
        guests(),
        counts(),
        all_labels("open-labels", Definition::open),
    ];
    let densest = Case {
        name: "densest-open".to_string(),
        bytes: heavy::densest_open().bytes(),
    };
    [lists.concat(), vec![densest]].concat()
}

/// Cards with links of kind 1, which the open shape ignores: to a card with a shape, to one without, to the card
/// itself, to the target of the other link, and without another link. Each card is booked, and card 0 under closed
/// shapes too.
fn one_more() -> Vec<Case> {
    let scripts: [&[u16]; 6] = [
        &ONE_MORE,
        &[3, 3, 0, 0, 1, 0, 1, 2, 2, 1, 0],
        &[2, 2, 0, 0, 1, 0, 1, 0],
        &[2, 2, 0, 0, 1, 0, 1, 1],
        &[2, 1, 0, 1, 1],
        &[3, 3, 0, 0, 1, 0, 0, 2, 0, 1, 1],
    ];
    let mut cases = Vec::new();
    for (number, script) in scripts.into_iter().enumerate() {
        for card in 0..script[0] {
            let name = format!("open-{number}-{card}");
            cases.push(case(name, &TOLERANT, script, &[1, 0, card, 0]));
        }
        let name = format!("open-{number}-last");
        cases.push(case(name, &TOLERANT, script, &[1, 1, script[0] - 1, 1]));
        cases.push(case(format!("closed-{number}"), &STRICT, script, &[1, 0, 0, 0]));
    }
    cases
}

/// A shape that takes every card, alone and asked for by a closed one, whose links don't lead on.
fn any() -> Vec<Case> {
    let templates: [&[u16]; 3] = [
        &ANY,
        &[1, 2, 2, 18, 0, 4, 256, 0, 1, 1],
        &[1, 2, 5, 18, 256, 1, 0, 65535, 2, 18, 0],
    ];
    let scripts: [&[u16]; 5] = [
        &[0, 0],
        &[2, 0],
        &[1, 1, 0, 0, 0],
        &[3, 2, 0, 0, 1, 1, 0, 2],
        &[3, 4, 0, 0, 1, 0, 0, 2, 1, 0, 0, 2, 0, 2],
    ];
    let mut cases = Vec::new();
    for template in templates {
        for script in scripts {
            let booked: &[u16] = match script[0] {
                0 => &[0],
                _ => &[1, 0, 0, template[1] - 1],
            };
            cases.push(case(format!("any-{}", cases.len()), template, script, booked));
        }
    }
    cases
}

/// Two or three shapes that ask for each other by kinds 0 and 1, of which the first, the second, the first and the
/// last, all or none are open; the cards form a ring, and some have links of kind 2.
fn each_other() -> Vec<Case> {
    let (first, second, third) = ([256, 1, 1, 1], [257, 0, 1, 2], [257, 0, 0, 65535]);
    let shape = |open: bool, part: &[u16]| match open {
        true => [&[5, 18], part].concat(),
        false => [&[4], part].concat(),
    };
    let scripts: [&[u16]; 3] = [
        &[4, 4, 0, 0, 1, 1, 1, 2, 2, 0, 3, 3, 1, 0],
        &[4, 5, 0, 0, 1, 0, 2, 2, 1, 1, 2, 2, 0, 3, 3, 1, 0],
        &[5, 6, 0, 0, 1, 1, 1, 2, 1, 2, 4, 2, 0, 3, 3, 1, 0, 3, 2, 3],
    ];
    let mut cases = Vec::new();
    for open in [[true, false, true], [false, true, false], [true; 3], [false; 3]] {
        let two = [shape(open[0], &first), shape(open[1], &second)].concat();
        let three = [two.clone(), shape(open[2], &third)].concat();
        for (shapes, words) in [(2, two), (3, three)] {
            let template = [vec![3, shapes], words].concat();
            for script in scripts {
                let name = format!("each-other-{}", cases.len());
                cases.push(case(name, &template, script, &[1, 0, 0, 0]));
            }
        }
    }
    cases
}

/// Open items and guests: links that arrive and are named, or are of a kind that isn't.
fn guests() -> Vec<Case> {
    let scripts: [&[u16]; 6] = [
        &[2, 1, 0, 0, 1],
        // The guest points back, by the same kind and by the other.
        &[2, 2, 0, 0, 1, 1, 0, 0],
        &[2, 2, 0, 0, 1, 1, 1, 0],
        // Only the other kind arrives; and both do.
        &[2, 1, 0, 1, 1],
        &[3, 2, 0, 0, 1, 2, 1, 1],
        &[1, 2, 0, 0, 0, 0, 1, 0],
    ];
    let mut cases = Vec::new();
    for (number, script) in scripts.into_iter().enumerate() {
        for place in 0..2 * script[0] {
            let name = format!("open-guests-{number}-{place}");
            cases.push(case(
                name,
                &OPEN_GUESTS,
                script,
                &[1, place % 2, place / 2, place % 2],
            ));
        }
    }
    cases
}

/// The count samples of docs/FORMAT.md as open shapes, with links of the kinds that they ignore.
fn counts() -> Vec<Case> {
    let sheets = samples::opened().into_iter().filter_map(|(name, shape, counts)| {
        Some(Case {
            name: format!("counts-{name}"),
            bytes: counted::sheet(&shape, &counts)?.bytes(),
        })
    });
    sheets.collect()
}
