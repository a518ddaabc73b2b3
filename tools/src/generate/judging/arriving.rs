//! Grids about links that arrive: cards at the starts of links that have or lack what is asked of them, links from a
//! card to itself, and kinds that are ignored.

use super::{every_grid, JudgeCase};
use crate::generate::arriving::{BOTH_ENDS, GUESTS};
use crate::generate::parts::{any_outgoing, incoming};
use crate::generate::{scripts, turns};
use crate::template::{self, Part, Template};

/// Two kinds and three shapes: what arrives of kind 0 comes from shape 1, what arrives of kind 1 from shape 2; both
/// point only at shape 0.
const TWO_STARTS: [u16; 35] = [
    2, 3, 10, 17, 2, 320, 1, 0, 65535, 321, 2, 0, 65535, 10, 17, 2, 256, 0, 0, 65535, 257, 0, 0, 65535, 10,
    17, 2, 256, 0, 0, 65535, 257, 0, 0, 65535,
];
/// Three shapes: a link to shape 1 and one from shape 2, any links to shape 1, any links to shape 2.
const TWO_SHAPES: [u16; 23] = [
    1, 3, 10, 17, 2, 256, 1, 1, 1, 320, 2, 1, 1, 4, 256, 1, 0, 65535, 4, 256, 2, 0, 65535,
];
/// Two kinds and one shape: one link of kind 0 arrives from a card with the same shape; any of both kinds start.
const ONE_ARRIVES: [u16; 17] = [2, 1, 14, 17, 3, 256, 0, 0, 65535, 257, 0, 0, 65535, 320, 0, 1, 1];

/// All of these grids.
pub fn arriving() -> Vec<JudgeCase> {
    let two_items: &[u16] = &[3, 2, 0, 0, 1, 2, 0, 1];
    [
        every_grid("guest", &GUESTS, &[2, 1, 0, 0, 1], &[1, 0, 1, 1]),
        every_grid("items", &GUESTS, two_items, &[0]),
        every_grid("itself", &BOTH_ENDS, &[1, 1, 0, 0, 0], &[0]),
        every_grid("itself-two", &TWO_SHAPES, &[1, 1, 0, 0, 0], &[1, 0, 0, 0]),
        every_grid("ignored", &ONE_ARRIVES, &[3, 3, 0, 0, 0, 1, 1, 0, 2, 1, 0], &[0]),
        starts(),
        rings(),
        hubs(),
    ]
    .concat()
}

/// Cards at the starts of links that have the shape asked for, another one, both or none; and the card at which they
/// point has the shape that they ask for, or hasn't.
fn starts() -> Vec<JudgeCase> {
    let rows: [[u8; 3]; 4] = [[0, 0, 0], [0, 1, 0], [0, 0, 1], [0, 1, 1]];
    let mut cases = Vec::new();
    for target in [[1, 0, 0], [0, 0, 0]] {
        for first in rows {
            for second in rows {
                let grid = [target, first, second].concat();
                let name = format!("start-{}", cases.len());
                cases.push(JudgeCase::new(
                    name,
                    &TWO_STARTS,
                    &[3, 2, 1, 0, 0, 2, 1, 0],
                    &[0],
                    &grid,
                ));
            }
        }
    }
    cases
}

/// A ring and a chain in which each card has to be led to: all of them have the shape, or some lack it.
fn rings() -> Vec<JudgeCase> {
    let mut cases = Vec::new();
    for (name, closed) in [("ring-back", true), ("chain-back", false)] {
        let mut files = turns::chain_back(3, closed);
        files.bookings = vec![0];
        for has in [[1, 1, 1], [1, 1, 0], [0, 1, 1], [0, 0, 0]] {
            cases.push(JudgeCase {
                name: format!("{name}-{}", cases.len()),
                files: files.clone(),
                desk: cases.len() as u16 % 2,
                grid: has.iter().flat_map(|byte| [*byte, 1]).collect(),
            });
        }
    }
    cases
}

/// A card at which 40 links arrive, of which none, the first or the last starts at a card that hasn't the shape.
fn hubs() -> Vec<JudgeCase> {
    let parts: Vec<Part> = vec![incoming(0, 1, 0, None), any_outgoing(1, 0)];
    let template = template::write(&Template::closed(1, parts));
    let links: scripts::Links = (1..=40).map(|card| (card, 0, 0)).collect();
    let script = scripts::words(41, &links);
    let case = |lacking: usize| {
        let mut grid = [0, 1].repeat(41);
        grid[..2].copy_from_slice(&[1, 0]);
        if lacking > 0 {
            grid[2 * lacking + 1] = 0;
        }
        JudgeCase::new(
            format!("hub-back-{lacking}"),
            &template,
            &script,
            &[1, 0, 0, 0],
            &grid,
        )
    };
    [0, 1, 40].map(case).into()
}
