//! Sheets about blank cards, the same in every run: such cards first, last, between others and alone, and next to
//! them cards with only arriving links, only leaving ones, or only one to itself, with and without a shape.

use super::Case;
use crate::script::MOST_CARDS;
use crate::sheet::Files;

/// One shape, which wants one link to a card that has it too. A blank card hasn't it, one with a link to itself has.
const WANTS_ONE: [u16; 7] = [1, 1, 4, 256, 0, 1, 1];
/// One shape, which wants no links. A blank card has it, one with a link to itself hasn't.
const WANTS_NONE: [u16; 4] = [1, 1, 1, 0];
/// Two shapes, which want no links and one to a card that wants none.
const TWO_SHAPES: [u16; 9] = [1, 2, 1, 0, 4, 256, 0, 1, 1];
/// One shape, which wants one arriving link from a card that has it too. A blank card hasn't it.
const WANTS_ARRIVING: [u16; 13] = [1, 1, 10, 17, 2, 256, 0, 0, 1, 320, 0, 1, 1];

/// All of these sheets.
pub fn blanks() -> Vec<Case> {
    let mut cases = Vec::new();
    for (name, template) in [
        ("one", &WANTS_ONE[..]),
        ("none", &WANTS_NONE),
        ("two", &TWO_SHAPES),
        ("arriving", &WANTS_ARRIVING),
    ] {
        for (number, script) in scripts().into_iter().enumerate() {
            cases.push(case(format!("blank-{name}-{number}"), template, script, vec![0]));
        }
        let booked = case(
            format!("blank-{name}-booked"),
            template,
            vec![3, 1, 1, 0, 2],
            vec![1, 0, 0, 0],
        );
        cases.push(booked);
    }
    let last_card = MOST_CARDS - 1;
    let all_blank = vec![MOST_CARDS, 0];
    let one_link = vec![MOST_CARDS, 1, last_card, 0, 0];
    let booked_twice = vec![2, 0, last_card, 0, 1, 0, 0];
    cases.extend([
        case(
            "blank-1024".to_string(),
            &WANTS_ONE,
            all_blank,
            booked_twice.clone(),
        ),
        case("one-link-1024".to_string(), &WANTS_ONE, one_link, booked_twice),
    ]);
    cases
}

/// Scripts of a few cards.
fn scripts() -> Vec<Vec<u16>> {
    vec![
        // Blank cards alone.
        vec![1, 0],
        vec![3, 0],
        // One last, after a link to itself, and after a card with a link to another.
        vec![2, 1, 0, 0, 0],
        vec![3, 1, 0, 0, 1],
        // One first, one between.
        vec![3, 1, 1, 0, 2],
        vec![3, 1, 0, 0, 2],
        // First, between and last.
        vec![5, 2, 1, 0, 1, 3, 0, 1],
        // None: a card with only a leaving link and one with only an arriving one.
        vec![2, 1, 0, 0, 1],
        // Only leaving links, to a card that has one to itself.
        vec![3, 3, 0, 0, 1, 1, 0, 1, 2, 0, 1],
        // Only arriving links, from two cards.
        vec![3, 2, 0, 0, 1, 2, 0, 1],
        // Only one link, to itself.
        vec![1, 1, 0, 0, 0],
    ]
}

fn case(name: String, template: &[u16], script: Vec<u16>, bookings: Vec<u16>) -> Case {
    let files = Files {
        template: template.to_vec(),
        script,
        bookings,
    };
    Case {
        name,
        bytes: files.bytes(),
    }
}
