//! Grids of sheets on which a desk books a pair twice, or nearly so: a repeat is told before anything is said about
//! the grid.

use super::JudgeCase;
use crate::generate::repeats::fixed::sheets;
use crate::generate::special::{DOCUMENT_SCRIPT, DOCUMENT_TEMPLATE};
use crate::sheet::Files;
use crate::typing::{links, Setting};

/// All of these grids.
pub fn repeats() -> Vec<JudgeCase> {
    [sheets().into_iter().map(largest).collect(), faults()].concat()
}

/// The largest typing of a sheet, for the desk that books there; an empty grid if its template or its script is
/// refused.
fn largest((name, files): (String, Files)) -> JudgeCase {
    let grid = match Setting::read(&files.template, &files.script) {
        Ok(setting) => links::largest(&setting).1,
        Err(_) => Vec::new(),
    };
    let desk = u16::from(name.contains("television"));
    JudgeCase {
        name,
        files,
        desk,
        grid,
    }
}

/// A repeat, and a grid that has each of the other faults: its size, a byte, a pair, and a booking that isn't held.
fn faults() -> Vec<JudgeCase> {
    let grids: [(&str, &[u8]); 6] = [
        ("empty", &[]),
        ("short", &[0, 0, 0, 0, 0]),
        ("long", &[0, 0, 0, 0, 0, 1, 0]),
        ("byte", &[0, 0, 0, 0, 0, 2]),
        ("pair", &[0, 1, 0, 0, 0, 1]),
        ("held", &[0, 0, 0, 0, 0, 0]),
    ];
    let case = |(name, grid): (&str, &[u8])| {
        JudgeCase::new(
            format!("repeat-and-{name}"),
            &DOCUMENT_TEMPLATE,
            &DOCUMENT_SCRIPT,
            &[2, 0, 2, 1, 0, 2, 1],
            grid,
        )
    };
    grids.into_iter().map(case).collect()
}
