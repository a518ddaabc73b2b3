//! Grids about counting the links of a card, and about alike cards.

use super::{read, JudgeCase};
use crate::generate::alike::fixed::sheets;
use crate::generate::runs::small;
use crate::sheet::Files;
use crate::typing::links;

/// Grids of the small sheets of runs.
pub fn runs() -> Vec<JudgeCase> {
    largest(small())
}

/// Grids of the sheets with alike cards.
pub fn alike() -> Vec<JudgeCase> {
    largest(sheets())
}

/// The largest typing of each sheet, in every other one with a pair more, the last that it lacks. Nothing is booked, so
/// the first are accepted and the others aren't.
fn largest(sheets: Vec<(String, Files)>) -> Vec<JudgeCase> {
    let mut cases = Vec::new();
    for (number, (name, mut files)) in sheets.into_iter().enumerate() {
        files.bookings = vec![0];
        let desk = number as u16 % 2;
        if let Ok((setting, _)) = read(&files, desk) {
            let (_, mut grid) = links::largest(&setting);
            let lacking = grid.iter().rposition(|byte| *byte == 0);
            if let Some(place) = lacking.filter(|_| number % 2 == 1) {
                grid[place] = 1;
            }
            cases.push(JudgeCase {
                name,
                files,
                desk,
                grid,
            });
        }
    }
    cases
}
