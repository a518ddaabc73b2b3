//! The examples of docs/FORMAT.md for *Judge a grid*, and every grid of the worked sheet.

use super::{every_grid, JudgeCase};
use crate::generate::arriving::GUESTS;
use crate::generate::open::{ONE_MORE, TOLERANT};
use crate::generate::special::{DOCUMENT_SCRIPT, DOCUMENT_TEMPLATE};

/// One kind and one shape, which is nothing.
pub const SMALL: [u16; 4] = [1, 1, 1, 0];
/// One shape, for cards with at most one link, and that to a card of the same shape.
const AT_MOST_ONE: [u16; 7] = [1, 1, 4, 256, 0, 0, 1];

/// A template, a script, bookings, a desk and a grid.
type Row = (&'static [u16], &'static [u16], &'static [u16], u16, &'static [u8]);

/// The examples of the page, in its order.
pub fn samples() -> Vec<JudgeCase> {
    let rows = [first_rows(), operation_rows(), last_rows()].concat().into_iter();
    rows.enumerate()
        .map(|(number, (template, script, bookings, desk, grid))| {
            JudgeCase::new(format!("sample-{number}"), template, script, bookings, grid).asking_for(desk)
        })
        .collect()
}

/// Those of the section on judging.
fn first_rows() -> Vec<Row> {
    let (small, link): (&[u16], &[u16]) = (&SMALL, &AT_MOST_ONE);
    vec![
        (link, &[2, 1, 0, 0, 1], &[0], 0, &[0, 0]),
        (link, &[2, 1, 0, 0, 1], &[0], 0, &[0, 1]),
        (link, &[2, 1, 0, 0, 1], &[0], 0, &[1, 1]),
        (link, &[2, 1, 0, 0, 1], &[0], 0, &[1, 0]),
        (small, &[3, 0], &[3, 1, 0, 0, 0, 1, 0, 1, 2, 0], 0, &[0, 1, 0]),
        (small, &[3, 0], &[3, 1, 0, 0, 0, 1, 0, 1, 2, 0], 0, &[0, 0, 0]),
        (small, &[3, 0], &[3, 1, 0, 0, 0, 1, 0, 1, 2, 0], 1, &[0, 1, 0]),
        (small, &[3, 0], &[3, 1, 0, 0, 0, 1, 0, 1, 2, 0], 1, &[1, 0, 0]),
        (small, &[3, 0], &[3, 1, 0, 0, 0, 1, 0, 1, 2, 0], 1, &[1, 0, 1]),
    ]
}

/// Those of the operation.
fn operation_rows() -> Vec<Row> {
    let (two, three, small): (&[u16], &[u16], &[u16]) = (&DOCUMENT_TEMPLATE, &DOCUMENT_SCRIPT, &SMALL);
    vec![
        (&[1, 1], &[1025, 0], &[], 2, &[2]),
        (small, &[1025, 0], &[], 2, &[2]),
        (small, &[1, 0], &[], 2, &[2, 2]),
        (small, &[1, 0], &[1025], 2, &[2, 2]),
        (small, &[1, 0], &[1, 2, 1], 2, &[2, 2]),
        (small, &[1, 0], &[1, 2, 1, 1], 2, &[2, 2]),
        (two, three, &[1, 1, 3, 1], 2, &[2, 2]),
        (small, &[1, 0], &[2, 0, 0, 1, 2, 1, 1], 2, &[2, 2]),
        (two, three, &[3, 1, 2, 1, 1, 2, 1, 2, 9, 9], 2, &[2, 1]),
        (two, three, &[1, 0, 0, 0], 2, &[2, 1, 1, 0, 0]),
        (two, three, &[0], 65535, &[2, 1, 1, 0, 0]),
        (two, three, &[1, 0, 0, 0], 0, &[2, 1, 1, 0, 0]),
        (two, three, &[1, 0, 1, 0], 0, &[0, 1, 0, 0, 0, 2]),
        (two, three, &[1, 0, 2, 1], 0, &[0, 2, 0, 0, 0, 255]),
        (two, three, &[1, 0, 0, 0], 0, &[0, 0, 1, 1, 0, 1]),
        (two, three, &[1, 0, 0, 0], 0, &[0, 0, 0, 0, 0, 1]),
        (two, three, &[2, 0, 2, 1, 0, 0, 0], 0, &[0, 0, 0, 0, 0, 1]),
        (two, three, &[2, 0, 1, 0, 1, 0, 0], 1, &[0, 0, 0, 0, 0, 1]),
        (two, three, &[1, 0, 2, 1], 0, &[0, 0, 0, 0, 0, 1]),
        (two, three, &[1, 0, 2, 1], 1, &[0, 0, 0, 0, 0, 0]),
        (two, three, &[1, 0, 0, 0], 1, &[0, 0, 0, 0, 0, 1]),
        (two, three, &[2, 0, 2, 1, 0, 2, 1], 1, &[0, 0, 0, 0, 0, 1]),
        (two, three, &[0], 0, &[0, 0, 0, 0, 0, 0]),
        (two, three, &[1, 0, 2, 1], 0, &[0, 0, 0, 0, 0]),
        (two, three, &[1, 0, 2, 1], 0, &[0, 0, 1, 1, 0, 1]),
        (small, &[2, 0], &[1, 0, 0, 0], 0, &[1, 1]),
        (small, &[0, 0], &[0], 1, &[]),
    ]
}

/// Those of items and guests and of open shapes.
fn last_rows() -> Vec<Row> {
    let (guests, open, more): (&[u16], &[u16], &[u16]) = (&GUESTS, &TOLERANT, &ONE_MORE);
    vec![
        (guests, &[2, 1, 0, 0, 1], &[1, 0, 1, 1], 0, &[1, 0, 0, 1]),
        (guests, &[2, 1, 0, 0, 1], &[1, 0, 1, 1], 0, &[0, 0, 0, 1]),
        (guests, &[2, 1, 0, 0, 1], &[0], 0, &[1, 0, 0, 0]),
        (guests, &[2, 1, 0, 0, 1], &[0], 0, &[0, 0, 0, 0]),
        (open, more, &[1, 0, 0, 0], 0, &[1, 0, 0, 1, 0, 0]),
        (open, more, &[1, 0, 0, 0], 0, &[1, 0, 0, 1, 0, 1]),
        (open, more, &[1, 0, 0, 0], 0, &[1, 0, 0, 0, 0, 1]),
        (open, more, &[0], 0, &[0, 0, 0, 1, 1, 1]),
    ]
}

/// The worked sheet with card 2 booked by the radio, and each of its 64 grids.
pub fn worked() -> Vec<JudgeCase> {
    every_grid("worked", &DOCUMENT_TEMPLATE, &DOCUMENT_SCRIPT, &[1, 0, 2, 1])
}
