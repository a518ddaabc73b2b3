//! The examples of docs/FORMAT.md for *Tidy bookings*.

use super::TidyCase;
use crate::generate::judging::samples::SMALL;
use crate::generate::special::{DOCUMENT_SCRIPT, DOCUMENT_TEMPLATE};
use crate::sheet::Files;

/// A template, a script, a stored list and the length of a buffer.
type Row = (&'static [u16], &'static [u16], &'static [u16], usize);

/// The examples of the page, in its order.
pub fn samples() -> Vec<TidyCase> {
    let case = |(number, (template, script, bookings, words)): (usize, Row)| TidyCase {
        name: format!("sample-{number}"),
        files: Files {
            template: template.to_vec(),
            script: script.to_vec(),
            bookings: bookings.to_vec(),
        },
        words,
    };
    rows().into_iter().enumerate().map(case).collect()
}

fn rows() -> Vec<Row> {
    let (two, three, small): (&[u16], &[u16], &[u16]) = (&DOCUMENT_TEMPLATE, &DOCUMENT_SCRIPT, &SMALL);
    vec![
        (&[1, 1], &[1025, 0], &[], 9),
        (small, &[1025, 0], &[], 9),
        (small, &[1, 0], &[], 9),
        (small, &[1, 0], &[1025], 9),
        (small, &[1, 0], &[1, 1], 9),
        (two, three, &[1, 0, 2, 1], 9),
        (two, three, &[3, 2, 1, 2, 1, 9, 9], 9),
        (two, three, &[1, 2, 2], 9),
        (two, three, &[3, 2, 1, 0, 0, 2, 1], 9),
        (two, three, &[3, 2, 1, 0, 0, 2, 1], 11),
        (two, three, &[3, 2, 1, 0, 0, 2, 1], 7),
        (two, three, &[3, 2, 1, 0, 0, 2, 1], 10),
        (two, three, &[4, 2, 1, 2, 1, 2, 1, 2, 1], 13),
        (two, three, &[2, 0, 0, 0, 1], 7),
        (two, three, &[0], 1),
    ]
}
