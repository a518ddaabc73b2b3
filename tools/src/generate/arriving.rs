//! Sheets about links that arrive, the same in every run: what guests ask of items, links from a card to itself, kinds
//! that are ignored, counts both ways, strikes and closures against the links, and all labels in one shape.

use super::parts::any_outgoing;
use super::scripts::{self, Links};
use super::{counted, heavy, turns, Case};
use crate::labels::Label;
use crate::numbers::Shape;
use crate::samples;
use crate::script::MOST_CARDS;
use crate::sheet::Files;
use crate::template::{self, Definition, Part, Template, MOST_KINDS};

/// Items, which point at guests, and guests, at which items point (docs/FORMAT.md).
pub const GUESTS: [u16; 12] = [1, 2, 4, 256, 1, 1, 65535, 4, 320, 0, 1, 65535];
/// One shape: a link starts at the card and one arrives, both joining it to cards with the same shape.
pub const BOTH_ENDS: [u16; 13] = [1, 1, 10, 17, 2, 256, 0, 1, 1, 320, 0, 1, 1];

/// All of these sheets.
pub fn arriving() -> Vec<Case> {
    let labels = all_labels("labels", Definition::closed);
    [guests(), itself(), ignored(), counts(), in_turn(), labels].concat()
}

/// A sheet of these words.
pub fn case(name: String, template: &[u16], script: &[u16], bookings: &[u16]) -> Case {
    let files = Files {
        template: template.to_vec(),
        script: script.to_vec(),
        bookings: bookings.to_vec(),
    };
    Case {
        name,
        bytes: files.bytes(),
    }
}

/// Items and guests: nothing booked, and each pair by itself.
fn guests() -> Vec<Case> {
    let scripts: [&[u16]; 5] = [
        &[2, 1, 0, 0, 1],
        // A guest at whom nobody points, two items with one guest, an item with two, and a card that is in between.
        &[3, 1, 0, 0, 1],
        &[3, 2, 0, 0, 1, 2, 0, 1],
        &[3, 2, 0, 0, 1, 0, 0, 2],
        &[3, 2, 0, 0, 1, 1, 0, 2],
    ];
    let mut cases = Vec::new();
    for (number, script) in scripts.into_iter().enumerate() {
        cases.push(case(format!("guests-{number}"), &GUESTS, script, &[0]));
        for place in 0..2 * script[0] {
            let name = format!("guests-{number}-{place}");
            cases.push(case(name, &GUESTS, script, &[1, place % 2, place / 2, place % 2]));
        }
    }
    cases
}

/// Links from a card to itself, whose ends ask for the same shape, for two, or of which one is named.
fn itself() -> Vec<Case> {
    let templates: [&[u16]; 5] = [
        &BOTH_ENDS,
        // Two shapes more, one for each end; the second takes no links of its own, then both do.
        &[
            1, 3, 10, 17, 2, 256, 1, 1, 1, 320, 2, 1, 1, 4, 256, 1, 0, 65535, 1, 0,
        ],
        &[
            1, 3, 10, 17, 2, 256, 1, 1, 1, 320, 2, 1, 1, 4, 256, 1, 0, 65535, 4, 256, 2, 0, 65535,
        ],
        // Only the end that arrives is named; and it may not arrive.
        &[1, 1, 4, 320, 0, 1, 1],
        &[1, 1, 10, 17, 2, 256, 0, 0, 65535, 320, 0, 0, 0],
    ];
    let scripts: [&[u16]; 5] = [
        &[1, 1, 0, 0, 0],
        &[2, 1, 1, 0, 1],
        &[2, 2, 0, 0, 0, 0, 0, 1],
        &[2, 2, 0, 0, 1, 1, 0, 0],
        &[2, 3, 0, 0, 0, 0, 0, 1, 1, 0, 0],
    ];
    let mut cases = Vec::new();
    for template in templates {
        for script in scripts {
            let name = format!("itself-{}", cases.len());
            cases.push(case(name, template, script, &[1, 0, 0, 0]));
        }
    }
    cases
}

/// Kinds that arrive and aren't named, and one that is named and may not arrive: the closure follows that all the same.
fn ignored() -> Vec<Case> {
    let templates: [&[u16]; 4] = [
        // Nothing; what arrives of kind 0 alone; what arrives of kind 1, but nothing of kind 0; a star of kind 0.
        &[2, 1, 1, 0],
        &[
            2, 2, 4, 320, 1, 1, 2, 10, 17, 2, 256, 1, 0, 65535, 257, 1, 0, 65535,
        ],
        &[
            2, 2, 10, 17, 2, 320, 0, 0, 0, 321, 1, 0, 65535, 10, 17, 2, 256, 1, 0, 65535, 257, 1, 0, 65535,
        ],
        &[
            2, 2, 5, 1, 320, 1, 2, 2, 10, 17, 2, 256, 1, 0, 65535, 257, 1, 0, 65535,
        ],
    ];
    let scripts: [&[u16]; 4] = [
        &[3, 2, 1, 0, 0, 2, 0, 0],
        &[3, 2, 1, 1, 0, 2, 1, 0],
        &[3, 3, 1, 0, 0, 1, 1, 0, 2, 0, 0],
        &[3, 3, 1, 0, 0, 1, 1, 0, 2, 1, 0],
    ];
    let mut cases = Vec::new();
    for template in templates {
        for script in scripts {
            let name = format!("ignored-{}", cases.len());
            cases.push(case(name, template, script, &[1, 0, 0, 0]));
        }
    }
    cases
}

/// The count samples of docs/FORMAT.md, and the same with kind b or both kinds arriving.
fn counts() -> Vec<Case> {
    let sheets = samples::turned().into_iter().filter_map(|(name, shape, counts)| {
        Some(Case {
            name: format!("counts-{name}"),
            bytes: counted::sheet(&shape, &counts)?.bytes(),
        })
    });
    sheets.collect()
}

/// Strikes and closures against the links, and along and against them in turn, up to everything at its limit.
fn in_turn() -> Vec<Case> {
    let mut cases = Vec::new();
    let mut push = |name: &str, files: Files| {
        cases.push(Case {
            name: name.to_string(),
            bytes: files.bytes(),
        })
    };
    for cards in [4, 9, MOST_CARDS] {
        push(&format!("chain-back-{cards}"), turns::chain_back(cards, false));
        push(&format!("ring-back-{cards}"), turns::chain_back(cards, true));
        push(&format!("zigzag-{cards}"), turns::zigzag(cards, false));
        push(&format!("zigzag-broken-{cards}"), turns::zigzag(cards, true));
    }
    push("longest-back-31-8", turns::longest_back(31, 8));
    push("densest-both-ways", heavy::densest_both_ways());
    cases
}

/// A shape that names each kind each way and wants one link of each: two cards with all of them, with all but one, and
/// a card with all of them to itself.
pub fn all_labels(start: &str, shape: fn(Part) -> Definition) -> Vec<Case> {
    let one_each = Label::all(MOST_KINDS).map(|label| Part::link(label, Shape(1), 1, Some(1)));
    let parts = [Part::all_of(one_each.collect()), any_outgoing(MOST_KINDS, 0)];
    let template = template::write(&Template {
        kinds: MOST_KINDS,
        definitions: parts.map(shape).into(),
    });
    let kinds = 0..MOST_KINDS;
    let both: Links = kinds
        .clone()
        .flat_map(|kind| [(0, kind, 1), (1, kind, 0)])
        .collect();
    let mut lacking = both.clone();
    lacking.remove(&(1, MOST_KINDS - 1, 0));
    let to_itself: Links = kinds.map(|kind| (0, kind, 0)).collect();
    [("both", both), ("lacking", lacking), ("itself", to_itself)]
        .iter()
        .map(|(name, links)| {
            let script = scripts::words(2, links);
            case(format!("{start}-{name}"), &template, &script, &[1, 0, 0, 0])
        })
        .collect()
}
