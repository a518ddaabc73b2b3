//! Fixed and random cases of a seed, with the answers of this implementation. The fixed ones come first, the same for
//! every seed; random ones that are long are left out.

use super::{section, sections, Case, Question, Tag, MOST_BYTES};
use crate::fit::{self, lines::written};
use crate::generate::judging::{self, JudgeCase};
use crate::generate::tidying::{self, TidyCase};
use crate::generate::{self, Case as Input};
use crate::samples::questions;
use crate::sheet;

/// A random sheet is left out if its input and its text have more bytes than this together.
const LONG_SHEET: usize = 5_000;
/// Another random case is left out if its sections have more bytes than this together.
const LONG_CASE: usize = 3_000;

/// Questions of *Fit counts*, answered by enumeration of bags.
pub fn fits(seed: u64, count: usize) -> Vec<Case> {
    let asked = questions::questions(seed, count);
    asked
        .map(|fit| {
            let answer = fit::fit_by_bags(&fit.template, fit.shape, &fit.counts);
            (fit_question(&fit), written(answer) + "\n")
        })
        .collect()
}

fn fit_question(fit: &questions::Question) -> Question {
    Question {
        name: "fit".to_string(),
        tag: Tag::Fit,
        sections: vec![
            section(&fit.template),
            section(&[fit.shape]),
            section(&fit.counts),
        ],
    }
}

/// Inputs of the sheet printer, with their texts.
pub fn sheets(seed: u64, count: usize) -> Vec<Case> {
    let fixed = generate::fixed();
    let cases = generate::cases(seed, count).enumerate();
    let fits = |(_, input): &(usize, Input)| input.bytes.len() <= MOST_BYTES;
    cases
        .filter(fits)
        .filter_map(|(number, Input { name, bytes })| {
            let text = sheet::print(&bytes);
            let is_stored = number < fixed || bytes.len() + text.len() <= LONG_SHEET;
            is_stored.then(|| (sheet(name, bytes), text))
        })
        .collect()
}

/// The question for the sheet printer.
pub fn sheet(name: String, input: Vec<u8>) -> Question {
    Question {
        name,
        tag: Tag::Sheet,
        sections: vec![input],
    }
}

/// Sheets with desks and grids to judge.
pub fn grids(seed: u64, count: usize) -> Vec<Case> {
    let (cases, fixed) = (judging::cases(seed, count), judging::fixed().len());
    kept(cases, fixed, grid, JudgeCase::answer)
}

/// The question of a grid.
pub fn grid(case: &JudgeCase) -> Question {
    Question {
        name: case.name.clone(),
        tag: Tag::Judge,
        sections: [
            sections(&case.files),
            vec![section(&[case.desk]), case.grid.clone()],
        ]
        .concat(),
    }
}

/// Sheets with stored lists to tidy.
pub fn lists(seed: u64, count: usize) -> Vec<Case> {
    let (cases, fixed) = (tidying::cases(seed, count), tidying::fixed().len());
    kept(cases, fixed, list, TidyCase::answer)
}

/// The question of a stored list.
pub fn list(case: &TidyCase) -> Question {
    Question {
        name: case.name.clone(),
        tag: Tag::Tidy,
        sections: [sections(&case.files), vec![section(&[case.words as u16])]].concat(),
    }
}

/// The first so many, which are fixed, and those of the others that aren't long, with the lines that are owed.
fn kept<T>(
    cases: impl Iterator<Item = T>,
    fixed: usize,
    ask: fn(&T) -> Question,
    answer: fn(&T) -> String,
) -> Vec<Case> {
    cases
        .map(|case| (ask(&case), case))
        .enumerate()
        .filter(|(number, (question, _))| *number < fixed || question.size() <= LONG_CASE)
        .map(|(_, (question, case))| (question, answer(&case) + "\n"))
        .collect()
}
