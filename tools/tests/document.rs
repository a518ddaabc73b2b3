//! What the format says outright: the worked sheet with both booking lists, its scripts, and the samples P1 to P12.

use prep_tools::fit;
use prep_tools::generate::special::{document, DOCUMENT_SCRIPT, DOCUMENT_TEMPLATE};
use prep_tools::numbers::{Card, Shape};
use prep_tools::refusal::Refusal;
use prep_tools::samples;
use prep_tools::script::{self, links_of_card};
use prep_tools::sheet;
use prep_tools::template;
use prep_tools::typing::{largest, largest_by_rounds, smallest, Largest, Smallest};

const LARGEST_LINES: &str = "largest 4 5 2\ncard 0:\ncard 1:\ncard 2: 1\n";
/// What is printed for a desk: with card 2 booked, with nothing booked, and with card 0 booked.
const ONE: &str = "smallest 1\ncard 0:\ncard 1:\ncard 2: 1\n";
const NONE: &str = "smallest 0\ncard 0:\ncard 1:\ncard 2:\n";
const NO: &str = "smallest no 0 1\n";

#[test]
fn the_sheet_with_bookings_that_are_met() {
    let text = sheet::print(&document(&[1, 0, 2, 1]).bytes());
    assert_eq!(text, format!("{LARGEST_LINES}{ONE}{NONE}"));
    let text = sheet::print(&document(&[1, 1, 2, 1]).bytes());
    assert_eq!(text, format!("{LARGEST_LINES}{NONE}{ONE}"));
    let text = sheet::print(&document(&[2, 0, 2, 1, 1, 2, 1]).bytes());
    assert_eq!(text, format!("{LARGEST_LINES}{ONE}{ONE}"));
}

#[test]
fn the_sheet_with_bookings_that_are_not_met() {
    let text = sheet::print(&document(&[1, 0, 0, 0]).bytes());
    assert_eq!(text, format!("{LARGEST_LINES}{NO}{NONE}"));
    let text = sheet::print(&document(&[2, 0, 2, 1, 1, 0, 0]).bytes());
    assert_eq!(text, format!("{LARGEST_LINES}{ONE}{NO}"));
    let text = sheet::print(&document(&[2, 0, 0, 0, 1, 0, 0]).bytes());
    assert_eq!(text, format!("{LARGEST_LINES}{NO}{NO}"));
}

#[test]
fn the_sheet_has_15_and_11_and_4_words() {
    let files = document(&[1, 0, 2, 1]);
    assert_eq!(
        (files.template.len(), files.script.len(), files.bookings.len()),
        (15, 11, 4)
    );
    assert_eq!(files.bytes().len(), 2 * (3 + 15 + 11 + 4));
    assert_eq!(sheet::split(&files.bytes()), Ok(files));
}

#[test]
fn the_calls_give_the_same_answers_as_the_sheet() {
    let answer = Largest {
        rounds: 4,
        struck: 5,
        bare: 2,
    };
    for method in [largest, largest_by_rounds] {
        let mut grid = [9; 6];
        assert_eq!(
            method(&DOCUMENT_TEMPLATE, &DOCUMENT_SCRIPT, &mut grid),
            Ok(answer)
        );
        assert_eq!(grid, [0, 0, 0, 0, 0, 1]);
    }
    let mut grid = [9; 6];
    let met = smallest(&DOCUMENT_TEMPLATE, &DOCUMENT_SCRIPT, &[1, 0, 2, 1], 0, &mut grid);
    assert_eq!((met, grid), (Ok(Smallest::Pairs(1)), [0, 0, 0, 0, 0, 1]));
    let of_other = smallest(&DOCUMENT_TEMPLATE, &DOCUMENT_SCRIPT, &[1, 0, 2, 1], 1, &mut grid);
    assert_eq!((of_other, grid), (Ok(Smallest::Pairs(0)), [0; 6]));
    grid = [9; 6];
    let not_met = smallest(&DOCUMENT_TEMPLATE, &DOCUMENT_SCRIPT, &[1, 1, 0, 0], 1, &mut grid);
    assert_eq!((not_met, grid), (Ok(Smallest::NotMet(Card(0), Shape(1))), [0; 6]));
}

#[test]
fn the_scripts_under_one_sheet_printed() {
    let read = |words: &[u16]| {
        script::read(&DOCUMENT_TEMPLATE, words).map(|script| (script.cards, script.links.len()))
    };
    assert_eq!(read(&[0, 0]), Ok((0, 0)));
    assert_eq!(read(&[1, 1, 0, 0, 0]), Ok((1, 1)));
    assert_eq!(read(&[1025, 0]), Err(Refusal::at(21, 0)));
    assert_eq!(read(&[2, 1, 0, 0, 2]), Err(Refusal::at(23, 4)));
    assert_eq!(read(&[1, 2, 0, 0, 0, 0, 0, 0]), Err(Refusal::at(25, 5)));
}

#[test]
fn the_links_of_a_card_are_a_part_of_the_script() {
    let of = |card| links_of_card(&DOCUMENT_TEMPLATE, &DOCUMENT_SCRIPT, card);
    assert_eq!(of(0), [0, 0, 2, 0, 1, 1]);
    assert_eq!(of(0).as_ptr(), DOCUMENT_SCRIPT[2..].as_ptr());
    assert_eq!(of(1), [1, 0, 0]);
    assert!(of(2).is_empty());
    assert!(of(3).is_empty());
    assert!(links_of_card(&[2, 2], &DOCUMENT_SCRIPT, 0).is_empty());
    assert!(links_of_card(&DOCUMENT_TEMPLATE, &[], 0).is_empty());
    assert!(links_of_card(&DOCUMENT_TEMPLATE, &DOCUMENT_SCRIPT[..10], 0).is_empty());
}

#[test]
fn the_samples_by_intervals_and_by_enumeration() {
    let table = samples::table();
    assert_eq!(table.len(), 18);
    for sample in table {
        let words = sample.template();
        assert_eq!(
            fit::fit(&words, 0, &sample.counts),
            Ok(sample.fits),
            "{sample:?} by intervals"
        );
        assert_eq!(
            fit::fit_by_bags(&words, 0, &sample.counts),
            Ok(sample.fits),
            "{sample:?} by bags"
        );
    }
}

#[test]
fn a_template_that_is_read_and_written_is_the_same() {
    let read = template::read(&DOCUMENT_TEMPLATE).expect("the worked sheet's template is well-formed");
    assert_eq!((read.kinds, read.shapes()), (2, 2));
    assert_eq!(template::write(&read), DOCUMENT_TEMPLATE);
}
