//! Cases of the grid judge and of the list tidier: inputs that are whole, and some of them cut short, going on, or at
//! the longest that is taken.

use super::Case;
use super::{Question, Tag};
use crate::generate::{judging, tidying};
use crate::programs::{self, MOST_JUDGED};

/// Longer inputs are left out, but for those at the limit.
const LONG: usize = 400;

/// One input in so many is also cut short, and goes on.
const DAMAGED: usize = 25;

/// The stored cases of both programs, which are the same for every seed.
pub fn cases() -> Vec<Case> {
    let judged = judging::fixed().into_iter().filter_map(|case| {
        let question = programs::Question {
            files: case.files,
            desk: case.desk,
            grid: case.grid,
        };
        question.bytes()
    });
    let tidied = tidying::fixed().into_iter().map(|case| case.files.bytes());
    let limits = [0, 1].map(longest).into_iter();
    let verdicts = short(judged).into_iter().chain(limits).map(verdict);
    verdicts.chain(short(tidied).into_iter().map(list)).collect()
}

/// The inputs that aren't long, and some of them a byte shorter and a byte longer.
fn short(inputs: impl Iterator<Item = Vec<u8>>) -> Vec<Vec<u8>> {
    let mut kept = Vec::new();
    for (number, input) in inputs.filter(|input| input.len() <= LONG).enumerate() {
        if number % DAMAGED == 0 {
            kept.push(input[..input.len() - 1].to_vec());
            kept.push([&input[..], &[0]].concat());
        }
        kept.push(input);
    }
    kept
}

/// An input of the grid judge that is as long as it takes, or so many bytes longer: a template with too many words,
/// no other words, and a grid of so many bytes.
fn longest(more: u16) -> Vec<u8> {
    let files = 2 * 3;
    let words = (MOST_JUDGED - files - 4) / 2;
    let template = [vec![words as u16], vec![0; words]].concat();
    let rest = [0, 0, 0, more];
    let mut input: Vec<u8> = template
        .into_iter()
        .chain(rest)
        .flat_map(u16::to_le_bytes)
        .collect();
    input.extend(vec![0; usize::from(more)]);
    input
}

fn verdict(input: Vec<u8>) -> Case {
    let line = programs::judge_line(&input);
    (question("verdict", Tag::GridJudge, input), line)
}

fn list(input: Vec<u8>) -> Case {
    let bytes = programs::tidy_list(&input);
    let numbers: String = bytes.iter().map(|byte| format!(" {byte}")).collect();
    (question("list", Tag::ListTidier, input), format!(":{numbers}\n"))
}

fn question(name: &str, tag: Tag, input: Vec<u8>) -> Question {
    Question {
        name: name.to_string(),
        tag,
        sections: vec![input],
    }
}
