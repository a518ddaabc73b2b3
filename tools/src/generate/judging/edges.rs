//! Each refusal of a grid from both sides: its size, its bytes, its pairs and the bookings that it holds.

use super::samples::SMALL;
use super::{counts_of, JudgeCase};
use crate::generate::special::{nothings, DOCUMENT_SCRIPT, DOCUMENT_TEMPLATE};
use crate::samples::turned;

/// One kind and three shapes: no links, one link to a card of shape 0, two of them.
const NONE_ONE_TWO: [u16; 14] = [1, 3, 1, 0, 4, 256, 0, 1, 1, 4, 256, 0, 2, 2];
/// Five cards for it. Cards 0, 3 and 4 have no links, card 1 has one and card 2 has two.
const FIVE: [u16; 11] = [5, 3, 1, 0, 0, 2, 0, 0, 2, 0, 3];
/// Two kinds and three shapes: links of kind 0 to shape 1 and of kind 1 to shape 2, and twice nothing.
const TWO_WAYS: [u16; 17] = [2, 3, 10, 17, 2, 256, 1, 0, 65535, 257, 2, 0, 65535, 1, 0, 1, 0];
/// One shape, which wants one link to a card that has it too.
const WANTS_ONE: [u16; 7] = [1, 1, 4, 256, 0, 1, 1];
/// Two shapes: any links to cards of the second one, which is nothing.
const HUB: [u16; 9] = [1, 2, 4, 256, 1, 0, 65535, 1, 0];
/// Two shapes, both nothing.
const TWICE_NOTHING: [u16; 6] = [1, 2, 1, 0, 1, 0];

/// All edges.
pub fn edges() -> Vec<JudgeCase> {
    let lists = [
        sizes(),
        bytes(),
        bytes_and_pairs(),
        lowest(),
        far_ends(),
        hubs(),
        // The count samples of docs/FORMAT.md, as they are, with kind b arriving and with both kinds arriving.
        counts_of(turned()),
        held(),
    ];
    lists.concat()
}

/// The grid's size, 40.
fn sizes() -> Vec<JudgeCase> {
    let mut cases = Vec::new();
    for length in [0, 1, 5, 7, 12] {
        let grid = vec![0; length];
        let name = format!("size-{length}");
        cases.push(JudgeCase::new(
            name,
            &DOCUMENT_TEMPLATE,
            &DOCUMENT_SCRIPT,
            &[0],
            &grid,
        ));
    }
    let wide = nothings(32);
    cases.extend([
        JudgeCase::new("size-of-one-0", &SMALL, &[1, 0], &[0], &[]),
        JudgeCase::new("size-of-one-1", &SMALL, &[1, 0], &[0], &[1]),
        JudgeCase::new("size-of-one-2", &SMALL, &[1, 0], &[0], &[1, 1]),
        JudgeCase::new("no-cards-1", &SMALL, &[0, 0], &[0], &[0]),
        JudgeCase::new("no-cards-over", &SMALL, &[0, 0], &[0], &[2]),
        JudgeCase::new("no-cards-booked", &SMALL, &[0, 0], &[1, 0, 0, 0], &[]),
        JudgeCase::new("no-cards-wide", &wide, &[0, 0], &[0], &[]),
        JudgeCase::new("no-cards-wide-32", &wide, &[0, 0], &[0], &[0; 32]),
    ]);
    cases
}

/// Bytes over 1 in a grid whose pairs are all met, 61.
fn bytes() -> Vec<JudgeCase> {
    let mut cases = Vec::new();
    for byte in [1, 2, 255] {
        for place in [0, 6, 11] {
            let mut grid = vec![0; 12];
            grid[place] = byte;
            let name = format!("byte-{byte}-{place}");
            cases.push(JudgeCase::new(name, &SMALL, &[12, 0], &[0], &grid));
        }
    }
    let several = [0, 1, 0, 255, 0, 0, 0, 2, 3, 0, 0, 4];
    cases.push(JudgeCase::new("bytes-several", &SMALL, &[12, 0], &[0], &several));
    // A place that takes two bytes, and the same grid without it.
    for byte in [1, 2] {
        let grid = [vec![1; 299], vec![byte]].concat();
        let name = format!("byte-{byte}-299");
        cases.push(JudgeCase::new(name, &SMALL, &[300, 0], &[1, 0, 0, 0], &grid));
    }
    cases
}

/// A byte over 1 far behind a pair that isn't met, and just before it; and a pair that isn't met without such a byte.
fn bytes_and_pairs() -> Vec<JudgeCase> {
    let script = [40, 1, 5, 0, 6];
    let grid = vec![1; 40];
    let (mut behind, mut before) = (grid.clone(), grid.clone());
    behind[39] = 2;
    before[4] = 255;
    vec![
        JudgeCase::new("unmet", &SMALL, &script, &[0], &grid),
        JudgeCase::new("unmet-then-byte", &SMALL, &script, &[0], &behind),
        JudgeCase::new("byte-then-unmet", &SMALL, &script, &[0], &before),
    ]
}

/// The lowest of several pairs that aren't met, 62: first by card, then by shape.
fn lowest() -> Vec<JudgeCase> {
    let sound = [1, 0, 0, 0, 1, 0, 0, 0, 1, 1, 0, 0, 1, 0, 0];
    let changes: [&[usize]; 12] = [
        &[],
        // A pair more: in the first place, the last one, several by card, several of one card.
        &[1],
        &[1, 2],
        &[14],
        &[13, 14],
        &[5, 6],
        &[3, 5],
        &[2, 3, 13],
        // A pair less: nobody asks for it, card 2 does, cards 1 and 2 do, card 1 loses its own.
        &[12],
        &[9],
        &[0],
        &[4],
    ];
    let case = |(number, places): (usize, &&[usize])| {
        let mut grid = sound;
        for place in places.iter() {
            grid[*place] = 1 - grid[*place];
        }
        JudgeCase::new(format!("lowest-{number}"), &NONE_ONE_TWO, &FIVE, &[0], &grid)
    };
    changes.iter().enumerate().map(case).collect()
}

/// Cards at the far ends of links that have the shape asked for, another one, both or none; and links in a ring.
fn far_ends() -> Vec<JudgeCase> {
    let mut cases = Vec::new();
    let rows: [[u8; 3]; 4] = [[0, 0, 0], [0, 1, 0], [0, 0, 1], [0, 1, 1]];
    for first in rows {
        for second in rows {
            let grid = [[1, 0, 0], first, second].concat();
            let name = format!("far-{}", cases.len());
            cases.push(JudgeCase::new(
                name,
                &TWO_WAYS,
                &[3, 2, 0, 0, 1, 0, 1, 2],
                &[0],
                &grid,
            ));
        }
    }
    for byte in [0, 1] {
        let name = format!("itself-{byte}");
        cases.push(JudgeCase::new(name, &WANTS_ONE, &[1, 1, 0, 0, 0], &[0], &[byte]));
    }
    for grid in [[1, 1, 1], [1, 1, 0], [0, 1, 1], [0, 0, 0]] {
        let ring = [3, 3, 0, 0, 1, 1, 0, 2, 2, 0, 0];
        let chain = [3, 2, 0, 0, 1, 1, 0, 2];
        let name = format!("ring-{}", cases.len());
        cases.push(JudgeCase::new(name, &WANTS_ONE, &ring, &[0], &grid));
        let name = format!("chain-{}", cases.len());
        cases.push(JudgeCase::new(name, &WANTS_ONE, &chain, &[0], &grid));
    }
    cases
}

/// A card with 40 links, of which none, the first or the last leads to a card that hasn't the shape.
fn hubs() -> Vec<JudgeCase> {
    let mut script = vec![41, 40];
    script.extend((1..=40).flat_map(|card| [0, 0, card]));
    let mut whole = [0, 1].repeat(41);
    whole[..2].copy_from_slice(&[1, 0]);
    let case = |lacking: usize| {
        let mut grid = whole.clone();
        if lacking > 0 {
            grid[2 * lacking + 1] = 0;
        }
        JudgeCase::new(format!("hub-{lacking}"), &HUB, &script, &[1, 0, 0, 0], &grid)
    };
    [0, 1, 40].map(case).into()
}

/// Bookings that are held, and the first, one in the middle, the last or several that aren't, 63.
fn held() -> Vec<JudgeCase> {
    let three: &[u16] = &[3, 0, 0, 0, 0, 1, 0, 0, 3, 0];
    let two: &[u16] = &[2, 0, 1, 0, 0, 2, 0];
    let not_ascending: &[u16] = &[3, 0, 1, 0, 0, 0, 0, 0, 2, 0];
    let on_cards: [(&[u16], [u8; 4]); 12] = [
        (three, [1, 1, 1, 1]),
        (three, [1, 1, 0, 1]),
        (three, [0, 1, 1, 1]),
        (three, [1, 0, 1, 1]),
        (three, [1, 1, 1, 0]),
        (three, [0, 1, 1, 0]),
        (three, [1, 0, 1, 0]),
        (three, [0, 0, 0, 0]),
        (two, [0, 1, 1, 0]),
        (two, [1, 0, 1, 1]),
        (two, [1, 1, 0, 1]),
        (not_ascending, [1, 1, 0, 1]),
    ];
    // The card has another shape than the one that it is booked for, or one of the two.
    let on_shapes: [(&[u16], [u8; 2]); 5] = [
        (&[1, 0, 0, 1], [1, 0]),
        (&[1, 0, 0, 1], [0, 1]),
        (&[2, 0, 0, 1, 0, 0, 0], [1, 0]),
        (&[2, 0, 0, 0, 0, 0, 1], [1, 0]),
        (&[2, 0, 0, 0, 0, 0, 1], [1, 1]),
    ];
    let mut cases = Vec::new();
    for (bookings, grid) in on_cards {
        let name = format!("held-{}", cases.len());
        cases.push(JudgeCase::new(name, &SMALL, &[4, 0], bookings, &grid));
    }
    for (bookings, grid) in on_shapes {
        let name = format!("held-{}", cases.len());
        cases.push(JudgeCase::new(name, &TWICE_NOTHING, &[1, 0], bookings, &grid));
    }
    cases
}
