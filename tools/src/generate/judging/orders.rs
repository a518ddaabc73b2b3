//! Several faults at once, so that the order of the refusals shows. Each of the eight stages has a fault that stands
//! early in what it spoils and one that stands late.

use super::JudgeCase;
use crate::generate::special::{DOCUMENT_SCRIPT, DOCUMENT_TEMPLATE};
use crate::script::MOST_CARDS;
use crate::typing::bookings::MOST_BOOKINGS;

/// What is spoiled, in the order in which it is looked at. The grid's pairs and bytes are spoiled before its size.
#[derive(Clone, Copy, PartialEq, Eq, Debug)]
enum Stage {
    Template,
    Script,
    Bookings,
    Desk,
    Size,
    Bytes,
    Pairs,
    Held,
}

const STAGES: [Stage; 8] = [
    Stage::Template,
    Stage::Script,
    Stage::Bookings,
    Stage::Desk,
    Stage::Size,
    Stage::Bytes,
    Stage::Pairs,
    Stage::Held,
];

/// A fault: its stage, and whether it stands late.
type Fault = (Stage, bool);

/// Each fault alone, each two faults of different stages of which one stands early and the other late, and all from
/// each stage on.
pub fn orders() -> Vec<JudgeCase> {
    let mut cases = vec![spoiled(&[])];
    for (order, first) in STAGES.into_iter().enumerate() {
        for late in [false, true] {
            cases.push(spoiled(&[(first, late)]));
            for second in &STAGES[order + 1..] {
                cases.push(spoiled(&[(first, late), (*second, !late)]));
            }
            if order + 2 < STAGES.len() {
                let faults: Vec<Fault> = STAGES[order..].iter().map(|stage| (*stage, late)).collect();
                cases.push(spoiled(&faults));
            }
        }
    }
    cases
}

/// The worked sheet with one blank card more and a sound grid that holds both bookings of the radio, between which
/// there is one of the television that it doesn't hold; and then these faults, which stand in the order of the stages.
/// The later ones are made first.
fn spoiled(faults: &[Fault]) -> JudgeCase {
    let grid = [0, 0, 0, 0, 0, 1, 0, 1];
    let bookings = [3, 0, 2, 1, 1, 0, 0, 0, 3, 1];
    let mut case = JudgeCase::new("", &DOCUMENT_TEMPLATE, &DOCUMENT_SCRIPT, &bookings, &grid);
    case.files.script[0] = 4;
    for fault in faults.iter().rev() {
        spoil(&mut case, *fault);
    }
    let names = faults.iter().map(|(stage, late)| {
        let end = if *late { "late" } else { "early" };
        format!("-{stage:?}-{end}").to_lowercase()
    });
    case.name = format!("order{}", names.collect::<String>());
    case
}

fn spoil(case: &mut JudgeCase, (stage, late): Fault) {
    let (files, grid) = (&mut case.files, &mut case.grid);
    match (stage, late) {
        (Stage::Template, false) => files.template[0] = 0,
        (Stage::Template, true) => files.template.push(0),
        (Stage::Script, false) => files.script[0] = MOST_CARDS + 1,
        (Stage::Script, true) => files.script[10] = 4,
        (Stage::Bookings, false) => files.bookings[0] = MOST_BOOKINGS + 1,
        (Stage::Bookings, true) => files.bookings[9] = 2,
        (Stage::Desk, false) => case.desk = 2,
        (Stage::Desk, true) => case.desk = 65535,
        (Stage::Size, false) => {
            grid.remove(0);
        }
        (Stage::Size, true) => grid.push(0),
        (Stage::Bytes, false) => grid[1] = 2,
        (Stage::Bytes, true) => grid[5] = 255,
        // Card 1 hasn't the shape that card 0's second link asks for; card 2 has no links at all.
        (Stage::Pairs, false) => grid[0] = 1,
        (Stage::Pairs, true) => grid[4] = 1,
        (Stage::Held, false) => files.bookings[2..4].copy_from_slice(&[1, 0]),
        (Stage::Held, true) => files.bookings[8..10].copy_from_slice(&[1, 0]),
    }
}
