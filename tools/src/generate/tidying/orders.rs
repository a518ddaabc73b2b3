//! Several faults at once, so that the order of the refusals shows. The list has repeats, which are no fault.

use super::TidyCase;
use crate::generate::special::document;
use crate::script::MOST_CARDS;
use crate::typing::bookings::MOST_BOOKINGS;

/// A fault: its name, and what puts it into a case.
pub type Fault = (&'static str, fn(&mut TidyCase));

/// The faults of the files, in the order in which they are told.
const OF_FILES: [Fault; 9] = [
    ("template", |case| case.files.template[0] = 0),
    ("template-end", |case| case.files.template.push(0)),
    ("script", |case| case.files.script[0] = MOST_CARDS + 1),
    ("script-end", |case| case.files.script[10] = 3),
    ("empty", |case| case.files.bookings.clear()),
    ("over", |case| case.files.bookings[0] = MOST_BOOKINGS + 1),
    ("size", |case| case.files.bookings.push(0)),
    ("card", |case| case.files.bookings[5] = 3),
    ("shape", |case| case.files.bookings[8] = 2),
];

/// The faults of the buffer, which come last.
const OF_BUFFER: [Fault; 4] = [
    ("stored", |case| case.words = 9),
    ("short", |case| case.words -= 1),
    ("long", |case| case.words += 1),
    ("none", |case| case.words = 0),
];

/// No fault, each fault alone, and each two of which one may be the buffer's. The later one is made first.
pub fn orders() -> Vec<TidyCase> {
    let mut cases = vec![spoiled(&[])];
    for (order, first) in OF_FILES.iter().enumerate() {
        cases.push(spoiled(&[first]));
        let later = OF_FILES[order + 1..].iter().chain(&OF_BUFFER);
        cases.extend(later.map(|second| spoiled(&[first, second])));
    }
    cases.extend(OF_BUFFER.iter().map(|fault| spoiled(&[fault])));
    cases
}

/// The worked sheet and a list with repeats, and then these faults, which stand in the order in which they are told.
fn spoiled(faults: &[&Fault]) -> TidyCase {
    let mut case = TidyCase::new("order", document(&[4, 2, 1, 2, 1, 0, 0, 2, 1]));
    for (_, spoil) in faults.iter().rev() {
        spoil(&mut case);
    }
    let names: Vec<&str> = faults.iter().map(|(name, _)| *name).collect();
    case.name = [&["order"], &names[..]].concat().join("+");
    case
}
