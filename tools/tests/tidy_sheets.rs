//! A pair that a desk books twice in a sheet: where and how that is told, and how `tidy` drops it. Words whose bookings
//! are a stored list: what `tidy` makes of them.

use prep_tools::generate::special::document;
use prep_tools::generate::tidying;
use prep_tools::refusal::Refusal;
use prep_tools::sheet::Files;
use prep_tools::text::check;
use prep_tools::text::load::{load_input, load_sheet};
use prep_tools::text::tidy::tidy;
use prep_tools::text::write;
use prep_tools::text::{machine, printed};
use prep_tools::typing::bookings;
use prep_tools::typing::tidying::tidy as operation;

/// The worked sheet, with bookings that stand twice, in between other lines.
const TEXT: &str = "\
kinds: a b
shape First = all(a[1;1]@Second, # both
                  b[0;1]@First)
shape Second = nothing
book two Second # the first
card zero \"The # first\"
card one
card two
book zero First
  book\ttwo Second   # once more
link zero a two
link zero b one
book zero First
book two First
link one a zero";

/// The same without repeats.
const TIDY: &str = "\
kinds: a b
shape First = all(a[1;1]@Second, # both
                  b[0;1]@First)
shape Second = nothing
book two Second # the first
card zero \"The # first\"
card one
card two
book zero First
# once more
link zero a two
link zero b one
book two First
link one a zero";

#[test]
fn the_line_of_the_second_booking_is_told_with_that_of_the_first() {
    let message = check::run("x.txt", TEXT).expect_err("a pair is booked twice");
    assert_eq!(
        message,
        "x.txt:10:8: refused 65 8: a desk books a pair a second time\n  \
         it is booked at line 5, column 6 already\n  \
         word 8 of the bookings is 2: the card of the booking two Second\n\
         x.txt:13:6: refused 65 11: a desk books a pair a second time\n  \
         it is booked at line 9, column 6 already\n  \
         word 11 of the bookings is 0: the card of the booking zero First"
    );
    let once = TEXT.replace("  book\ttwo Second", "");
    let message = check::run("x.txt", &once).expect_err("another pair is booked twice");
    assert!(message.starts_with("x.txt:13:6: refused 65 8: "), "{message}");
    assert!(
        message.contains("\n  it is booked at line 9, column 6 already\n"),
        "{message}"
    );
    let cards = TEXT
        .replace("zero First", "one Second")
        .replace("two First", "one First");
    let message = check::run("x.txt", &cards).expect_err("a pair is booked twice");
    assert!(message.starts_with("x.txt:10:8: refused 65 8: "), "{message}");
}

#[test]
fn words_tell_the_first_booking_by_its_number() {
    let bytes = document(&[3, 1, 2, 1, 0, 2, 1, 1, 2, 1]).bytes();
    let trouble = load_sheet("x.bin", &bytes).expect_err("a pair is booked twice");
    assert_eq!(
        trouble.to_string(),
        "x.bin: refused 65 8: a desk books a pair a second time\n  \
         its desk and its pair are those of booking 0\n  \
         word 8 of the bookings is 2: the card of booking 2, counted from 0"
    );
}

#[test]
fn json_has_the_refusals_with_their_lines() {
    let told = |bytes: &[u8]| {
        let trouble = load_sheet("x", bytes).expect_err("a pair is booked twice");
        machine::trouble(&trouble).to_string()
    };
    let written = told(TEXT.as_bytes());
    assert!(written.starts_with(
        "{\"format\":1,\"file\":\"x\",\"form\":\"text\",\"outcome\":\"refused\",\
         \"refusals\":[{\"number\":65,\"place\":8,\
         \"message\":\"a desk books a pair a second time\",\"section\":\"bookings\",\"word\":2,\
         \"role\":\"the card of the booking two Second\",\
         \"note\":\"it is booked at line 5, column 6 already\",\"line\":10,\"column\":8},\
         {\"number\":65,\"place\":11,"
    ));
    assert!(written.ends_with(
        "\"note\":\"it is booked at line 9, column 6 already\",\"line\":13,\"column\":6}],\"more\":0}"
    ));
    assert_eq!(
        told(&document(&[2, 0, 2, 1, 0, 2, 1]).bytes()),
        "{\"format\":1,\"file\":\"x\",\"form\":\"words\",\"outcome\":\"refused\",\
         \"refusals\":[{\"number\":65,\"place\":5,\
         \"message\":\"a desk books a pair a second time\",\"section\":\"bookings\",\"word\":2,\
         \"role\":\"the card of booking 1, counted from 0\",\
         \"note\":\"its desk and its pair are those of booking 0\",\"line\":null,\"column\":null}],\"more\":0}"
    );
}

#[test]
fn a_printed_65_is_explained_where_a_pair_is_booked_again() {
    let said = |bytes: &[u8], place: usize| {
        let said = printed::refusal("x", bytes, Refusal::at(65, place)).expect("the file has words");
        (said.is_so, said.words)
    };
    let (text, words) = (TEXT.as_bytes(), document(&[3, 0, 2, 1, 0, 0, 0, 0, 2, 1]).bytes());
    for (bytes, start, first) in [(text, "x:10:8: ", "it is booked at"), (&words, "x: ", "its desk")] {
        let (is_so, told) = said(bytes, 8);
        assert!(
            is_so && told.starts_with(&format!("{start}refused 65 8: ")),
            "{told}"
        );
        assert!(told.contains(&format!("\n  {first}")), "{told}");
        // These are no repeats, whatever a program printed.
        for place in [0, 1, 2, 3, 4, 5, 6, 7, 9, 20, 100, usize::MAX] {
            let (is_so, told) = said(bytes, place);
            let otherwise = format!("x: this isn't refused with 65 {place}, but so:\n{start}refused 65 8: ");
            assert!(!is_so && told.starts_with(&otherwise), "{told}");
        }
    }
}

#[test]
fn what_tidying_refuses_is_explained() {
    let said = |bytes: &[u8], number: u16, place: usize| {
        let said = printed::refusal("x", bytes, Refusal::at(number, place)).expect("the file has words");
        (said.is_so, said.words)
    };
    // A stored list: the printer refuses it as a whole, and tidying its third booking.
    let stored = document(&[3, 2, 1, 0, 0, 9, 1]).bytes();
    let (is_so, told) = said(&stored, 30, 0);
    assert!(is_so && told.contains("`tidy` puts the desks in"), "{told}");
    let (is_so, told) = said(&stored, 32, 5);
    assert!(
        is_so && told.ends_with("is 9: the card of booking 2, counted from 0\n"),
        "{told}"
    );
    assert!(!said(&stored, 32, 8).0);
    // A list with desks can't be tidied.
    let (is_so, told) = said(&document(&[1, 0, 2, 1]).bytes(), 30, 0);
    assert!(is_so && told.contains("the desks are there already"), "{told}");
}

#[test]
fn words_of_the_wrong_form_are_told_which_form_they_have() {
    let stored = document(&[3, 2, 1, 0, 0, 2, 1]).bytes();
    let trouble = load_sheet("x.bin", &stored).expect_err("the desks are missing");
    assert_eq!(
        trouble.to_string(),
        "x.bin: refused 30 0: the bookings have the wrong count of words\n  \
         it has two words for each booking, as a stored list has: `tidy` puts the desks in\n  \
         word 0 of the bookings is 3: the count of bookings"
    );
    let tidied = tidy("x.bin", &stored).expect("the list is tidied");
    assert_eq!(tidied.bytes, document(&[2, 0, 2, 1, 0, 0, 0]).bytes());
    assert_eq!((tidied.bookings, tidied.dropped), (3, 1));
    let trouble = tidy("x.bin", &tidied.bytes).expect_err("the desks are there");
    assert_eq!(
        trouble.to_string(),
        "x.bin: refused 30 0: the bookings have the wrong count of words\n  \
         it has three words for each booking: the desks are there already\n  \
         word 0 of the bookings is 2: the count of bookings"
    );
    let wrong = tidy("x.bin", &document(&[2, 2, 1, 9, 9]).bytes()).expect_err("a card is wrong");
    let told = wrong.to_string();
    assert!(
        told.ends_with("word 3 of the bookings is 9: the card of booking 1, counted from 0"),
        "{told}"
    );
}

#[test]
fn each_desk_may_book_a_pair_once() {
    let both = TIDY.to_string() + "\nbook 1 two Second\nbook 1 zero First\n";
    let kept = tidy("x.txt", both.as_bytes()).expect("the text is tidied");
    assert_eq!((kept.bookings, kept.dropped), (5, 0));
    check::run("x.txt", &both).expect("each desk books a pair once");
    let again = format!("{both}book 1 two Second # again\nbook 0 two First\n");
    let message = check::run("x.txt", &again).expect_err("a desk books a pair twice");
    assert_eq!(
        message,
        "x.txt:17:8: refused 65 17: a desk books a pair a second time\n  \
         it is booked at line 15, column 8 already\n  \
         word 17 of the bookings is 2: the card of the booking 1 two Second\n\
         x.txt:18:8: refused 65 20: a desk books a pair a second time\n  \
         it is booked at line 13, column 6 already\n  \
         word 20 of the bookings is 2: the card of the booking 0 two First"
    );
    let tidied = tidy("x.txt", again.as_bytes()).expect("the text is tidied");
    assert_eq!(String::from_utf8_lossy(&tidied.bytes), format!("{both}# again\n"));
    assert_eq!((tidied.bookings, tidied.dropped), (7, 2));
}

#[test]
fn of_a_text_only_the_later_bookings_go() {
    let tidied = tidy("x.txt", TEXT.as_bytes()).expect("the text is tidied");
    assert_eq!(String::from_utf8_lossy(&tidied.bytes), TIDY);
    assert_eq!((tidied.bookings, tidied.dropped), (5, 2));
    let again = tidy("x.txt", TIDY.as_bytes()).expect("the text is tidied");
    assert_eq!((again.bookings, again.dropped), (3, 0));
    assert_eq!(again.bytes, TIDY.as_bytes());
    check::run("x.txt", TIDY).expect("the tidied text is a sheet");
}

#[test]
fn marks_and_ends_of_lines_stay() {
    let windows = |text: &str| format!("{text}\n").replace('\n', "\r\n");
    for (source, left) in [
        (
            format!("\u{feff}{TEXT}\nbook two First"),
            format!("\u{feff}{TIDY}\n"),
        ),
        (windows(TEXT), windows(TIDY)),
    ] {
        let tidied = tidy("x.txt", source.as_bytes()).expect("the text is tidied");
        assert_eq!(String::from_utf8_lossy(&tidied.bytes), left);
    }
}

#[test]
fn words_are_tidied_as_the_operation_does() {
    let mut dropped = 0;
    for case in tidying::cases(95, tidying::fixed().len() + 200) {
        let Files {
            template,
            script,
            bookings,
        } = &case.files;
        let mut buffer = vec![7; tidying::room(bookings)];
        match (
            tidy("x", &case.files.bytes()),
            operation(template, script, bookings, &mut buffer),
        ) {
            (Ok(tidied), Ok(words)) => {
                buffer.truncate(words);
                let owed = Files {
                    bookings: buffer,
                    ..case.files.clone()
                };
                assert_eq!(tidied.bytes, owed.bytes(), "{}", case.name);
                let gone = bookings.len() / 2 - words / 3;
                assert_eq!((tidied.bookings, tidied.dropped), (bookings.len() / 2, gone));
                dropped += gone;
            }
            (Err(trouble), Err(refusal)) => {
                let told = format!("x: refused {} {}: ", refusal.number, refusal.place);
                assert!(trouble.to_string().starts_with(&told), "{trouble}");
            }
            (command, operation) => panic!("{}: {command:?}, {operation:?}", case.name),
        }
    }
    assert!(dropped > 5000, "only {dropped} are dropped");
}

#[test]
fn a_text_and_its_words_are_tidied_alike() {
    for case in tidying::cases(96, tidying::fixed().len() + 100) {
        // The text of a list with repeats: that of the sheet without bookings, and a line for each booking.
        let mut bare = case.files.clone();
        bare.bookings = vec![0];
        let (Ok(text), Ok(tidied)) = (write::text(&bare.bytes()), tidy("x", &case.files.bytes())) else {
            continue;
        };
        let list: Vec<[u16; 2]> = bookings::cut(&case.files.bookings);
        let lines = list
            .iter()
            .map(|[card, shape]| format!("book card{card} Shape{shape}\n"));
        let source = text + &lines.collect::<String>();
        let of_text = tidy("x", source.as_bytes()).expect("the text is tidied");
        assert_eq!(
            (of_text.bookings, of_text.dropped),
            (tidied.bookings, tidied.dropped)
        );
        let words = load_input("x", &of_text.bytes).expect("the text is read");
        assert_eq!(words, tidied.bytes, "{}", case.name);
    }
}

#[test]
fn a_sheet_with_another_fault_is_not_tidied() {
    for (source, start) in [
        (TEXT.replace("[1;1]", "[2;1]"), "x.txt:2:21: refused 10 7: "),
        (
            TEXT.replace("link one", "link zero a two\nlink one"),
            "x.txt:15:13: refused 25 5: ",
        ),
        (TEXT.replace("[1;1]", "[1;1"), "x.txt:2:20: this `[` isn't closed"),
        (
            TEXT.replace("two First", "three First"),
            "x.txt:14:6: no card is named `three`",
        ),
    ] {
        let told = tidy("x.txt", source.as_bytes())
            .expect_err("the text has a fault")
            .to_string();
        assert!(told.starts_with(start), "{told}");
    }
    let many = "book two Second\n".repeat(1025);
    let told = tidy("x.txt", format!("{TIDY}\n{many}").as_bytes())
        .expect_err("too many")
        .to_string();
    assert!(
        told.contains("refused 31 0: ") && told.contains("there are 1028 bookings"),
        "{told}"
    );
}
