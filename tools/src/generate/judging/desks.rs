//! Whose the bookings are that a grid has to hold, and which desk is asked for.

use super::samples::SMALL;
use super::{every_grid, JudgeCase};
use crate::generate::desks::sheets;
use crate::generate::special::{DOCUMENT_SCRIPT, DOCUMENT_TEMPLATE};
use crate::sheet::Files;
use crate::typing::{links, Setting};

/// All of these grids.
pub fn desks() -> Vec<JudgeCase> {
    let worked = every_grid(
        "desks-worked",
        &DOCUMENT_TEMPLATE,
        &DOCUMENT_SCRIPT,
        &[2, 0, 0, 0, 1, 2, 1],
    );
    let television = worked.into_iter().map(|case| case.asking_for(1));
    let lists = sheets().into_iter().enumerate().map(largest);
    [television.collect(), lists.collect(), held(), calls(), orders()].concat()
}

/// The largest typing of a sheet, for the desks in turn; an empty grid if its template or its script is refused.
fn largest((number, (name, files)): (usize, (String, Files))) -> JudgeCase {
    let grid = match Setting::read(&files.template, &files.script) {
        Ok(setting) => links::largest(&setting).1,
        Err(_) => Vec::new(),
    };
    JudgeCase {
        name: format!("desks-{name}"),
        files,
        desk: number as u16 % 2,
        grid,
    }
}

/// Two bookings of each desk, in turn, and every grid, for each desk: the first booking of that desk that isn't held.
/// One that the other desk has before it doesn't matter.
fn held() -> Vec<JudgeCase> {
    let list = [4, 1, 0, 0, 0, 1, 0, 1, 2, 0, 0, 3, 0];
    let cases = every_grid("desks-held", &SMALL, &[4, 0], &list);
    let for_desk = |desk: u16| cases.iter().map(move |case| case.clone().asking_for(desk));
    for_desk(0).chain(for_desk(1)).collect()
}

/// Each desk and numbers that are no desk's, with lists of either desk, of both and of none, and with grids of the
/// right size and a byte short.
fn calls() -> Vec<JudgeCase> {
    let lists: [&[u16]; 5] = [
        &[1, 0, 2, 1],
        &[1, 1, 2, 1],
        &[2, 0, 2, 1, 1, 2, 1],
        &[2, 0, 0, 0, 1, 2, 1],
        &[0],
    ];
    let grids: [&[u8]; 3] = [&[0, 0, 0, 0, 0, 1], &[0, 0, 0, 0, 0, 0], &[0, 0, 0, 0, 0]];
    let mut cases = Vec::new();
    for desk in [0, 1, 2, 65535] {
        for list in lists {
            for grid in grids {
                let name = format!("desks-call-{desk}-{}", cases.len());
                cases.push(worked(name, list, grid).asking_for(desk));
            }
        }
    }
    cases
}

/// Lists with each fault, for a desk that there is and for one that there is not: the list's fault is told first, and
/// the call's desk before a grid that is short, has a byte over 1, a pair that isn't met, or lacks a booking.
fn orders() -> Vec<JudgeCase> {
    let lists: [&[u16]; 9] = [
        &[],
        &[1025],
        &[1, 2, 1],
        &[1, 2, 2, 1],
        &[1, 1, 3, 1],
        &[1, 1, 2, 2],
        &[2, 1, 2, 1, 1, 2, 1],
        &[2, 0, 2, 1, 65535, 2, 1],
        &[2, 0, 2, 1, 1, 2, 1],
    ];
    let grids: [&[u8]; 4] = [
        &[2, 0, 0, 0, 0],
        &[0, 0, 0, 0, 1, 2],
        &[0, 1, 0, 0, 0, 0],
        &[0, 0, 0, 0, 0, 0],
    ];
    let mut cases = Vec::new();
    for desk in [1, 2] {
        for list in lists {
            for grid in grids {
                let name = format!("desks-order-{desk}-{}", cases.len());
                cases.push(worked(name, list, grid).asking_for(desk));
            }
        }
    }
    cases
}

/// The worked sheet with this list and this grid.
fn worked(name: String, list: &[u16], grid: &[u8]) -> JudgeCase {
    JudgeCase::new(name, &DOCUMENT_TEMPLATE, &DOCUMENT_SCRIPT, list, grid)
}
