//! The text form: to words and back, and every fault told at its line and column.

use prep_tools::generate;
use prep_tools::generate::arriving::GUESTS;
use prep_tools::generate::open::{ONE_MORE, TOLERANT};
use prep_tools::generate::special::document;
use prep_tools::random::Random;
use prep_tools::refusal::Refusal;
use prep_tools::sheet::{self, Files};
use prep_tools::text::check;
use prep_tools::text::form::{form, Form};
use prep_tools::text::load::{compiled, load_sheet};
use prep_tools::text::parse::MOST_HEIGHT;
use prep_tools::text::refusals::refusals;
use prep_tools::text::{explain, quotations, roles, write, Spot};
use prep_tools::typing::Smallest;

/// The sheet worked through in docs/FORMAT.md; its links stand in another order than in the script.
const DOCUMENT: &str = "\
# A comment.
kinds: a b
shape First = all(a[1;1]@Second,  # a part may go on
                  b[0;1]@First)
shape Second = nothing
card zero
card one
card two
link one a zero
link zero a two
link zero b one
book two Second
";

fn bytes(source: &str) -> Vec<u8> {
    let (_, compiled) = compiled(source.as_bytes()).expect("the text has no faults");
    compiled.files().bytes()
}

/// The message for a text with a fault.
fn fault(source: &str) -> String {
    check::run("x.txt", source).expect_err("the text has a fault")
}

#[test]
fn the_documents_sheet_has_its_words() {
    assert_eq!(bytes(DOCUMENT), document(&[1, 0, 2, 1]).bytes());
}

#[test]
fn the_example_of_the_description_has_the_same_words() {
    let description = include_str!("../TEXT-FORM.md");
    let lines = description.lines().skip_while(|line| !line.starts_with("    # "));
    let example: Vec<&str> = lines.map_while(|line| line.strip_prefix("    ")).collect();
    let source = example.join("\n");
    assert_eq!(bytes(&source), document(&[2, 0, 2, 1, 1, 2, 1]).bytes());
    let sheet = check::run("x.txt", &source).expect("the example is a sheet");
    assert_eq!(sheet.text.card_title(1), "The card \"one\"");
}

#[test]
fn a_booking_may_have_a_desk() {
    let with = |book: &str| DOCUMENT.replace("book two Second", book);
    for (book, words) in [
        ("book two Second", &[1, 0, 2, 1][..]),
        ("book 0 two Second", &[1, 0, 2, 1]),
        ("book 1 two Second", &[1, 1, 2, 1]),
        ("book 1 two Second\nbook two Second", &[2, 1, 2, 1, 0, 2, 1]),
        ("book 65535 two Second", &[1, 65535, 2, 1]),
    ] {
        assert_eq!(bytes(&with(book)), document(words).bytes(), "{book}");
    }
    let two = with("book 0 two Second\nbook 1 one First\n");
    let written = write::sheet_text(&check::run("x.txt", &two).expect("the text is a sheet"));
    assert!(
        written.ends_with("\nbook two Second\nbook 1 one First\n"),
        "{written}"
    );
    assert_eq!(bytes(&written), bytes(&two));
    assert_eq!(
        fault(&with("book 2 two Second")),
        "x.txt:12:6: refused 66 1: a desk is neither radio, 0, nor television, 1\n  \
         `book` takes 0, radio or no word for the radio, and 1 or television for the other desk\n  \
         word 1 of the bookings is 2: the desk of the booking 2 two Second"
    );
    assert_eq!(
        fault(&with("book 65536 two Second")),
        "x.txt:12:6: no word can say the desk 65536"
    );
    assert_eq!(
        fault(&with("book 1 0 Second")),
        "x.txt:12:8: the name of a card is wanted here, not 0"
    );
    assert_eq!(
        fault(&with("book 1 two")),
        "x.txt:12:11: the name of a shape is wanted here, not the end of the line"
    );
}

#[test]
fn a_desk_may_be_called_by_its_name() {
    let with = |book: &str| DOCUMENT.replace("book two Second", book);
    for (named, numbered) in [
        ("book radio two Second", "book 0 two Second"),
        ("book television two Second", "book 1 two Second"),
        (
            "book television two Second\nbook radio two Second",
            "book 1 two Second\nbook two Second",
        ),
    ] {
        assert_eq!(bytes(&with(named)), bytes(&with(numbered)), "{named}");
    }
    // Two words are a card and a shape, whatever the card is called.
    let radio = with("book two Second").replace("two", "radio");
    assert_eq!(bytes(&radio), bytes(DOCUMENT));
    let both = radio.replace("book radio", "book radio radio");
    assert_eq!(bytes(&both), bytes(DOCUMENT));
    let twice = fault(&with("book radio two Second\nbook two Second"));
    assert!(twice.starts_with("x.txt:13:6: refused 65 5"), "{twice}");
    assert!(
        twice.contains("it is booked at line 12, column 12 already"),
        "{twice}"
    );
    let other = fault(&with("book tv two Second"));
    assert_eq!(
        other,
        "x.txt:12:6: before a card and a shape stands a desk, 0, radio, 1 or television, not `tv`"
    );
}

/// Items and guests, as docs/FORMAT.md has them, with one item and its guest.
const GUEST_SHEET: &str = "\
kinds: guest
shape Item = guest[1;]@Guest
shape Guest = ^guest[1;]@Item
card quiz
card ann
link quiz guest ann
book ann Guest
";

#[test]
fn what_arrives_has_its_words() {
    let files = Files {
        template: GUESTS.to_vec(),
        script: vec![2, 1, 0, 0, 1],
        bookings: vec![1, 0, 1, 1],
    };
    assert_eq!(bytes(GUEST_SHEET), files.bytes());
    // Blanks and brackets change nothing, and a kind may stand in a shape once each way.
    let same = GUEST_SHEET.replace("^guest[1;]@Item", "( ^ guest [ 1 ; ] @ Item )");
    assert_eq!(bytes(&same), files.bytes());
    let both = GUEST_SHEET.replace("^guest[1;]@Item", "all(guest[0;0]@Item, ^guest[1;]@Item)");
    assert!(check::run("x.txt", &both).is_ok());
    let written = write::text(&files.bytes()).expect("the words are a sheet");
    assert!(written.contains("shape Shape0 = kind0[1;]@Shape1\nshape Shape1 = ^kind0[1;]@Shape0\n"));
    assert_eq!(bytes(&written), files.bytes());
}

/// The sheet with an open shape of docs/FORMAT.md.
const OPEN_SHEET: &str = "\
kinds: a b
open shape First = a[1;1]@Second
shape Second = nothing
card zero
card one
card two
link zero a one
link zero b two
book zero First
";

#[test]
fn an_open_shape_has_its_words() {
    let files = Files {
        template: TOLERANT.to_vec(),
        script: ONE_MORE.to_vec(),
        bookings: vec![1, 0, 0, 0],
    };
    assert_eq!(bytes(OPEN_SHEET), files.bytes());
    let written = write::text(&files.bytes()).expect("the words are a sheet");
    assert!(written.contains("\nopen shape Shape0 = kind0[1;1]@Shape1\nshape Shape1 = nothing\n"));
    assert_eq!(bytes(&written), files.bytes());
    // The word may still be a name.
    let names = OPEN_SHEET
        .replace("First", "open")
        .replace("zero", "open")
        .replace(" a", " open");
    assert_eq!(bytes(&names), files.bytes());
    let sheet = check::run("x.txt", OPEN_SHEET).expect("the text is a sheet");
    assert_eq!(sheet.typings.smallest[0].0, Smallest::Pairs(2));
    let closed = OPEN_SHEET.replace("open shape", "shape");
    let sheet = check::run("x.txt", &closed).expect("the text is a sheet");
    assert!(matches!(sheet.typings.smallest[0].0, Smallest::NotMet(..)));
}

#[test]
fn the_word_18_is_told_with_its_role() {
    let role = roles::template_role(&TOLERANT, 3);
    assert_eq!(role, "the code that makes shape 0 open");
    let role = roles::template_role(&TOLERANT, 4);
    assert_eq!(role, "the code of the link of kind 0 in shape 0, at depth 1");
    let told = |template: &[u16]| {
        let files = Files {
            template: template.to_vec(),
            script: vec![0, 0],
            bookings: vec![0],
        };
        match load_sheet("x", &files.bytes()) {
            Ok(_) => panic!("the words aren't a sheet"),
            Err(trouble) => trouble.to_string(),
        }
    };
    assert_eq!(
        told(&[1, 1, 3, 1, 18, 0]),
        "x: refused 64 4: the code of an open shape is not the first word of a shape\n  \
         word 4 of the template is 18: the code that makes a shape open, where a part's code is wanted in shape 0, \
         at depth 2"
    );
    assert!(told(&[1, 1, 3, 18, 18, 0]).ends_with("wanted in shape 0, at depth 1"));
    assert!(told(&[1, 1, 1, 18])
        .ends_with("the template has no word 4: the code of a part in shape 0, at depth 1"));
    // A program without open shapes may refuse the word of a text; it comes from the word `open`.
    let (_, compiled) = compiled(OPEN_SHEET.as_bytes()).expect("the text has no faults");
    let told = explain::tell(&compiled, Refusal::at(5, 3));
    assert_eq!(told.spot, Some(Spot { line: 2, column: 1 }));
    assert!(told
        .to_string()
        .ends_with("is 18: the code that makes shape First open"));
}

#[test]
fn the_shapes_of_the_description_are_read() {
    let description = include_str!("../TEXT-FORM.md");
    let (_, after) = description
        .split_once("once with it:\n\n")
        .expect("there are such shapes");
    let shapes: Vec<&str> = after
        .lines()
        .map_while(|line| line.strip_prefix("    "))
        .collect();
    let source = format!(
        "{}\ncard x\ncard y\nlink x next y\nbook x Item\n",
        shapes.join("\n")
    );
    let sheet = check::run("x.txt", &source).expect("the shapes are read");
    assert_eq!(sheet.typings.smallest[0].0, Smallest::Pairs(2));
}

#[test]
fn the_open_shape_of_the_description_is_read() {
    let description = include_str!("../TEXT-FORM.md");
    let (_, after) = description
        .split_once("unless the shape is open:\n\n")
        .expect("there is such a shape");
    let shapes = after.lines().map_while(|line| line.strip_prefix("    "));
    let shapes: Vec<&str> = shapes.collect();
    let links = "link quiz guest ann\nlink quiz note memo\nlink memo note memo\nbook quiz Item\n";
    let source = format!("{}\ncard quiz\ncard ann\ncard memo\n{links}", shapes.join("\n"));
    let sheet = check::run("x.txt", &source).expect("the shapes are read");
    assert_eq!(sheet.typings.smallest[0].0, Smallest::Pairs(2));
    assert!(sheet.bare(2));
}

#[test]
fn words_come_back_from_their_text() {
    let (mut compared, mut arriving, mut open) = (0, 0, 0);
    for case in generate::cases(31, 1100) {
        match write::text(&case.bytes) {
            Ok(text) => {
                assert_eq!(bytes(&text), case.bytes, "{}", case.name);
                compared += 1;
                arriving += usize::from(text.contains('^'));
                open += usize::from(text.contains("\nopen shape "));
            }
            Err(message) => {
                let is_told = ["input: refused ", "input: the file "].map(|start| message.starts_with(start));
                assert!(is_told.contains(&true), "{message}");
            }
        }
    }
    let told =
        format!("{compared} inputs are well-formed, {arriving} with arriving links, {open} with open shapes");
    assert!(compared > 300 && arriving > 150 && open > 150, "{told}");
}

#[test]
fn each_refusal_names_the_word_at_fault() {
    let mut told = 0;
    for case in generate::cases(32, 1500) {
        let Ok(files) = sheet::split(&case.bytes) else {
            assert!(roles::tell_input(&case.bytes).note.is_some(), "{}", case.name);
            continue;
        };
        if let Err(refusal) = sheet::typings(&case.bytes) {
            let message = roles::tell(&files, refusal).to_string();
            let start = format!("refused {} {}: ", refusal.number, refusal.place);
            assert!(message.starts_with(&start), "{message}");
            assert!(message.contains(&format!("word {}", refusal.place)), "{message}");
            told += 1;
        }
    }
    assert!(told > 300, "only {told} inputs are refused");
}

#[test]
fn roles_name_the_words_of_a_template() {
    let words = [2, 2, 10, 17, 2, 256, 1, 1, 1, 257, 0, 0, 1, 1, 0];
    let roles = [
        "the count of kinds",
        "the count of shapes",
        "the count of words of shape 0",
        "the code of all in shape 0, at depth 1",
        "the count of parts of all in shape 0, at depth 1",
        "the code of the link of kind 0 in shape 0, at depth 2",
        "the shape of the link of kind 0 in shape 0, at depth 2",
        "the low of the link of kind 0 in shape 0, at depth 2",
        "the high of the link of kind 0 in shape 0, at depth 2",
    ];
    for (place, role) in roles.iter().enumerate() {
        assert_eq!(roles::template_role(&words, place), *role);
    }
    assert_eq!(
        roles::template_role(&words, 14),
        "nothing, in shape 1, at depth 1"
    );
    let guest = "the arriving link of kind 0 in shape 1, at depth 1";
    for (place, word) in [(8, "code"), (9, "shape"), (10, "low"), (11, "high")] {
        assert_eq!(
            roles::template_role(&GUESTS, place),
            format!("the {word} of {guest}")
        );
    }
    assert_eq!(roles::script_role(4), "the target of link 0, counted from 0");
    assert_eq!(roles::booking_role(4), "the desk of booking 1, counted from 0");
    assert_eq!(roles::booking_role(6), "the shape of booking 1, counted from 0");
}

/// A text with a fault, and what it is told with.
const FAULTS: &[(&str, &str)] = &[
    ("kind: a", "x.txt:1:1: a line starts with"),
    (
        "kinds: a\nshape A = b[0;1]@A",
        "x.txt:2:11: no kind is named `b`, perhaps `a`",
    ),
    (
        "kinds: guest\nshape A = gest[0;1]@A",
        "x.txt:2:11: no kind is named `gest`, perhaps `guest`",
    ),
    (
        "kinds: a\nshape A = a[0;1]@Xylophone",
        "x.txt:2:18: no shape is named `Xylophone`",
    ),
    (
        "kinds: a\nshape A = all(a[0;1]@A",
        "x.txt:2:14: this `(` is never closed",
    ),
    (
        "kinds: a\nshape A = a[0;65535]@A",
        "x.txt:2:15: 65535 can't be written",
    ),
    (
        "kinds: a\nopen",
        "x.txt:2:5: `shape` is wanted here, not the end of the line",
    ),
    (
        "kinds: a\nopen card x",
        "x.txt:2:6: `shape` is wanted here, not `card`",
    ),
    (
        "kinds: a\nopen open shape A = nothing",
        "x.txt:2:6: `shape` is wanted here, not `open`",
    ),
    (
        "kinds: a\nshape A = open nothing",
        "x.txt:2:16: `[` is wanted here, not `nothing`",
    ),
    ("kinds: a a", "x.txt:1:10: the kind `a` is named twice"),
    (
        "title \"One\"\nkinds: a\ntitle \"Two\"\nshape A = nothing",
        "x.txt:3:1: a sheet has one title, and this is the second",
    ),
    ("kinds: all", "x.txt:1:8: a kind can't be named `all`"),
    ("card \"x", "x.txt:1:6: the quotation isn't closed"),
    ("card x & y", "x.txt:1:8: the sign '&' has no meaning"),
    (
        "kinds: a\nshape A = all(a[0;1@A)",
        "x.txt:2:16: this `[` isn't closed before the `)` at line 2, column 22",
    ),
    (
        "kinds: a\nshape A = all(a[0;1]@A\nshape B = nothing)",
        "x.txt:2:14: this `(` isn't closed before line 3, column 1",
    ),
    (
        "kinds: a\nshape A = all(nothing nothing)",
        "x.txt:2:23: `,` or `)` is wanted here, not `nothing`; the bracket at line 2, column 14 is open",
    ),
    ("kinds: a)", "x.txt:1:9: this `)` closes nothing"),
    (
        "kinds: a\nshape A = ^(a[0;1]@A)",
        "x.txt:2:12: the name of a kind is wanted here, not `(`",
    ),
    (
        "kinds: a\nshape A = ^nothing",
        "x.txt:2:19: `[` is wanted here, not the end of the line",
    ),
    (
        "kinds: a\nshape A = ^^a[0;1]@A",
        "x.txt:2:12: the name of a kind is wanted here, not `^`",
    ),
    (
        "kinds: guest\nshape A = ^gest[0;1]@A",
        "x.txt:2:12: no kind is named `gest`, perhaps `guest`",
    ),
    (
        "card x \"a\\b\"",
        "x.txt:1:10: after a backslash in a quotation only",
    ),
    (
        "card x \"a\u{1}\"",
        "x.txt:1:10: the control character '\\u{1}' can't stand",
    ),
    (
        "card x \"a\\\"",
        "x.txt:1:8: the quotation isn't closed on its line",
    ),
    ("kind\u{1}s", "x.txt:1:5: the sign '\\u{1}' has no meaning"),
];

#[test]
fn faults_are_told_at_line_and_column() {
    for (source, start) in FAULTS {
        let message = fault(source);
        assert!(message.starts_with(start), "{message}");
    }
}

/// A text with faults of all sorts, and each of them.
const MANY_FAULTS: (&str, &[&str]) = (
    "\
title \"One
kinds: guest film guest
shape Item = all(gest[0;1]@Guest, film[0;1]@Flim)
shape Guest = guest[0;1@Item)
shape Film = all(guest[0;1]@Item
card quiz & night
card ann \"Ann\" again
crad bob
link quiz guest ann bob nobody nemo
link nemo film ann quiz
book bob Guest
book ann Gest
book 2 ann Guest Guest
book ann
title \"Two\"
title \"Three\"
",
    &[
        "1:7: the quotation isn't closed on its line",
        "2:19: the kind `guest` is named twice",
        "3:18: no kind is named `gest`, perhaps `guest`",
        "3:45: no shape is named `Flim`",
        "4:20: this `[` isn't closed before the `)` at line 4, column 29",
        "5:17: this `(` isn't closed before line 6, column 1",
        "6:11: the sign '&' has no meaning here",
        "7:16: the end of the line is wanted here, not `again`",
        "8:1: a line starts with title, kinds, shape, open shape, card, link or book, not with `crad`",
        "9:25: no card is named `nobody`",
        "9:32: no card is named `nemo`",
        "10:6: no card is named `nemo`",
        "12:10: no shape is named `Gest`",
        "13:18: the end of the line is wanted here, not `Guest`",
        "14:9: the name of a shape is wanted here, not the end of the line",
        "16:1: a sheet has one title, and this is the second",
    ],
);

#[test]
fn all_faults_are_told_in_the_texts_order() {
    let (source, faults) = MANY_FAULTS;
    let message = fault(source);
    let lines: Vec<&str> = message.lines().collect();
    for (line, fault) in lines.iter().zip(faults) {
        assert!(line.starts_with(&format!("x.txt:{fault}")), "{line}\n{fault}");
    }
    assert_eq!(lines.len(), faults.len(), "{message}");
}

#[test]
fn of_many_faults_the_first_twenty_are_told() {
    for (count, more) in [
        (20, ""),
        (21, "x.txt: and 1 more fault"),
        (500, "x.txt: and 480 more faults"),
    ] {
        let bookings: String = (0..count).map(|number| format!("book x S{number}\n")).collect();
        let message = fault(&format!("kinds: a\nshape A = nothing\ncard x\n{bookings}"));
        let lines: Vec<&str> = message.lines().collect();
        assert_eq!(lines[19], "x.txt:23:8: no shape is named `S19`");
        assert_eq!(lines[20..].join("\n"), more);
    }
    // However many there are, they take no time.
    let signs = format!("kinds: a\ncard x {}\n", "& ( ] \" ".repeat(100_000));
    assert!(fault(&signs).starts_with("x.txt:2:8: the sign '&' has no meaning here\n"));
    let brackets = "shape A = ((a\n".repeat(20_000);
    assert!(fault(&brackets).ends_with("x.txt: and 19980 more faults"));
    let names: String = (0..20_000).map(|number| format!("book c{number} A\n")).collect();
    let cards: String = (0..20_000).map(|number| format!("card d{number}\n")).collect();
    let unknown = fault(&format!("kinds: a\nshape A = nothing\n{cards}{names}"));
    assert!(unknown.ends_with("x.txt: and 19980 more faults"), "{unknown}");
}

/// A text that is refused for many reasons, and each of them.
const MANY_REFUSALS: (&str, &[&str]) = (
    "\
kinds: a b
shape A = all(a[2;1]@A, b[0;8193]@A, a[0;1]@A)
open shape B = choice(^a[9999;]@A)
shape C = nothing*************
card x
card y
link x a y x y
link y b x
link x a y
book x A
book 2 x A
book 1 x A
book x A
book television x A
",
    &[
        "2:17: refused 10 7",
        "2:27: refused 10 11",
        "2:38: refused 8 13",
        "3:16: refused 11 20",
        "3:26: refused 10 23",
        "4:18: refused 6 38",
        "7:14: refused 25 8",
        "9:10: refused 25 11",
        "11:6: refused 66 4",
        "13:6: refused 65 11",
        "14:17: refused 65 14",
    ],
);

#[test]
fn all_refusals_of_a_text_are_told() {
    let (source, refusals) = MANY_REFUSALS;
    let message = fault(source);
    let lines: Vec<&str> = message.lines().filter(|line| !line.starts_with("  ")).collect();
    for (line, refusal) in lines.iter().zip(refusals) {
        assert!(
            line.starts_with(&format!("x.txt:{refusal}: ")),
            "{line}\n{refusal}"
        );
    }
    assert_eq!(lines.len(), refusals.len(), "{message}");
    // With a fault there are no words that could be refused.
    let with_fault = fault(&source.replace("card y", "card y z"));
    assert_eq!(
        with_fault,
        "x.txt:6:8: the end of the line is wanted here, not `z`"
    );
}

#[test]
fn the_first_refusal_is_the_one_that_the_readers_answer() {
    let mut random = Random::new(71);
    let pieces = ["[0;1]", "[2;1]", "[0;8193]", "[8193;]", "[1;]"];
    let mut refused = 0;
    for _ in 0..400 {
        let mut source = "kinds: a b\ncard x\ncard y\n".to_string();
        for shape in 0..random.between(1, 3) {
            let mut link = || {
                let (sign, kind) = (random.pick(&["", "^"]), random.pick(&["a", "b"]));
                format!("{sign}{kind}{}@S0", random.pick(&pieces))
            };
            let (one, two) = (link(), link());
            let part = match random.below(5) {
                0 => one,
                1 => format!("all({one})"),
                2 => format!("choice({one}, {two})"),
                3 => format!("all({one}, ({two})?)+"),
                _ => format!("({one}){}", "*".repeat(random.between(9, 14))),
            };
            source += &format!("shape S{shape} = {part}\n");
        }
        for _ in 0..random.below(4) {
            source += random.pick(&["link x a y\n", "link x b y\n", "link y a x\n"]);
        }
        for _ in 0..random.below(4) {
            source += random.pick(&["book x S0\n", "book 1 x S0\n", "book 2 x S0\n", "book y S0\n"]);
        }
        let (_, compiled) = compiled(source.as_bytes()).expect("the text has no faults");
        let first = sheet::typings(&compiled.files().bytes()).err();
        let all = refusals(&compiled);
        assert_eq!(all.first().copied(), first, "{source}");
        refused += usize::from(all.len() > 1);
    }
    assert!(refused > 100, "{refused}");
}

#[test]
fn refusals_are_told_at_line_and_column() {
    let depth = format!("kinds: a\nshape A = nothing{}", "*".repeat(12));
    let cases = [
        ("card x".to_string(), "x.txt:1:1: refused 2 0"),
        ("kinds: a".to_string(), "x.txt:1:1: refused 3 1"),
        (
            "kinds: a\nshape A = all(a[0;1]@A)".to_string(),
            "x.txt:2:11: refused 11 4",
        ),
        (
            "kinds: a\nshape A = all(a[0;1]@A, a[0;1]@A)".to_string(),
            "x.txt:2:25: refused 8 9",
        ),
        (
            "kinds: a\nshape A = all(^a[0;1]@A, ^a[0;1]@A)".to_string(),
            "x.txt:2:26: refused 8 9",
        ),
        (
            "kinds: a\nshape A = a[2;1]@A".to_string(),
            "x.txt:2:13: refused 10 5",
        ),
        (
            "kinds: a\nshape A = ^a[2;1]@A".to_string(),
            "x.txt:2:14: refused 10 5",
        ),
        (depth, "x.txt:2:11: refused 6 15"),
        (
            "kinds: a\nshape A = nothing\ncard x\nlink x a x x".to_string(),
            "x.txt:4:12: refused 25 5",
        ),
    ];
    for (source, start) in cases {
        let message = fault(&source);
        assert!(message.starts_with(start), "{message}");
        assert!(
            message.contains(": the ") || message.contains(": nothing"),
            "{message}"
        );
    }
}

/// A text that is refused, and what that means there.
const HINTS: &[(&str, &str)] = &[
    ("card x", "no kind is named; a line `kinds: NAME ...` is missing"),
    (
        "kinds: a",
        "there is no shape; a line `shape NAME = PART` is missing",
    ),
    (
        "kinds: a\nshape A = all(nothing)",
        "choice and all take 2 to 16 parts, not 1",
    ),
    ("kinds: a\nshape A = a[2;1]@A", "the low 2 is above the high 1"),
    (
        "kinds: a\nshape A = a[8193;]@A",
        "the low is 8193; 8192 is the most",
    ),
    ("kinds: a\nshape A = a[0;8193]@A", "no limit is written `[0;]`"),
    (
        "kinds: a\nshape A = choice(a[0;1]@A, a[0;1]@A)",
        "the kind stands earlier in this shape the same way",
    ),
    (
        "kinds: a\nshape A = choice(^a[0;1]@A, a[0;1]@A, ^a[0;1]@A)",
        "the kind stands earlier in this shape the same way",
    ),
    (
        "kinds: a\nshape A = nothing\ncard x\nlink x a x x",
        "this link stands twice",
    ),
    (
        "kinds: a\nshape A = nothing\ncard x\nbook x A\n\n book x A",
        "it is booked at line 4, column 6 already",
    ),
];

#[test]
fn signs_of_a_part_are_told_by_their_names() {
    for (sign, name) in [('*', "star"), ('+', "plus"), ('?', "optional")] {
        let message = fault(&format!(
            "kinds: a\nshape A = nothing{}",
            sign.to_string().repeat(13)
        ));
        let end = format!(
            "\n  word 15 of the template is {}: {name}, in shape A",
            code(sign)
        );
        assert!(message.ends_with(&end), "{message}");
    }
}

fn code(sign: char) -> usize {
    "*+?".find(sign).map_or(0, |place| place + 1)
}

/// What the second line of the message for a refused text says.
fn hints(source: &str, told: &str) {
    let message = fault(source);
    let second = message.lines().nth(1).unwrap_or_default();
    assert!(second.contains(told), "{message}");
}

#[test]
fn refusals_of_a_text_say_what_they_mean_there() {
    for (source, told) in HINTS {
        hints(source, told);
    }
    let many = |line: &str, count: usize| -> String {
        let lines = (0..count).map(|number| line.replace('N', &number.to_string()));
        lines.collect()
    };
    let start = "kinds: a\nshape A = nothing\ncard x\n";
    let shapes = many("shape SN = nothing\n", 33);
    let (cards, booked) = (many("card cN\n", 1024), many("book x A\n", 1025));
    hints(&many("kinds kN\n", 65), "there are 65 kinds; 64 is the most");
    hints(
        &format!("kinds: a\n{shapes}"),
        "there are 33 shapes; 32 is the most",
    );
    hints(
        &format!("{start}{cards}"),
        "there are 1025 cards; 1024 is the most",
    );
    hints(
        &format!("{start}{booked}"),
        "there are 1025 bookings; 1024 is the most",
    );
}

#[test]
fn fifty_is_told_with_its_reason_and_its_booking() {
    let source = DOCUMENT.replace("book two Second", "book zero First");
    let sheet = check::run("x.txt", &source).expect("the sheet is read");
    assert!(matches!(sheet.typings.smallest[0].0, Smallest::NotMet(..)));
    let report = sheet.report("x.txt");
    let told =
        "x.txt:6:6: zero can't be Second: no a wanted, 1 there; no b wanted, 1 there\n  refused 50 0 1 for radio: ";
    assert!(report.contains(told), "{report}");
    assert!(
        report.contains("\n  booked by radio: zero First -b-> one First -a-> zero Second\n"),
        "{report}"
    );
}

#[test]
fn depth_is_limited_while_a_text_is_read() {
    let brackets = |count: usize| {
        format!(
            "kinds: a\nshape A = {}nothing{}",
            "(".repeat(count),
            ")".repeat(count)
        )
    };
    assert!(check::run("x.txt", &brackets(64)).is_ok());
    let deep = "x.txt:2:75: more than 64 brackets lie within each other here";
    for count in [65, 20_000, 1_000_000] {
        assert_eq!(fault(&brackets(count)), deep);
    }
    let open = format!("kinds: a\nshape A = {}", "choice(".repeat(20_000));
    assert!(fault(&open).starts_with("x.txt:2:465: more than 64 brackets"));
    let signs = format!("kinds: a\nshape A = nothing{}", "*".repeat(1_000_000));
    let place = 18 + MOST_HEIGHT - 1;
    assert!(fault(&signs).starts_with(&format!("x.txt:2:{place}: more than 64 parts lie")));
    // Brackets and signs by turns.
    let turns = format!(
        "kinds: a\nshape A = {}nothing{}",
        "(".repeat(60),
        "**)".repeat(60)
    );
    assert!(fault(&turns).contains(": more than 64 parts lie within each other here; 12 is the most"));
    let words = format!("kinds: a\nshape A = nothing{}", "?".repeat(MOST_HEIGHT - 1));
    assert!(fault(&words).contains("refused 6 15"));
}

#[test]
fn a_byte_order_mark_is_skipped() {
    let marked = format!("\u{feff}{DOCUMENT}");
    assert_eq!(bytes(&marked), bytes(DOCUMENT));
    assert!(fault("\u{feff}kind: a").starts_with("x.txt:1:1: a line starts with"));
    assert!(fault("kinds: a\n\u{feff}").starts_with("x.txt:2:1: the sign '\\u{feff}'"));
    let sheet = load_sheet("x", marked.as_bytes()).expect("the sheet is read");
    assert_eq!(sheet.form, Form::Text);
}

#[test]
fn titles_may_contain_any_signs() {
    let mut random = Random::new(12);
    let signs = ['"', '\\', 'a', ' ', '#', '(', 'é', '\t', '`', '“'];
    for _ in 0..500 {
        let title: String = (0..random.below(9)).map(|_| random.pick(&signs)).collect();
        let quoted = quotations::write(&title);
        let source = format!("title {quoted}\nkinds: a\nshape A = nothing\ncard x {quoted} # \"comment\n");
        let sheet = check::run("x.txt", &source).expect("the text is read");
        assert_eq!(sheet.text.title.as_ref(), Some(&title));
        assert_eq!(sheet.text.card_title(0), title);
        // Written out and read again it is the same.
        let written = write::sheet_text(&sheet);
        let again = check::run("x.txt", &written).expect("what is written is read");
        assert_eq!(again.text.title, sheet.text.title);
        assert_eq!(again.text.card_title(0), title);
        assert_eq!(write::sheet_text(&again), written);
    }
    assert_eq!(quotations::write("say \"a\\b\""), "\"say \\\"a\\\\b\\\"\"");
}

#[test]
fn a_text_written_out_has_the_same_words_and_names() {
    for source in [
        DOCUMENT,
        GUEST_SHEET,
        OPEN_SHEET,
        include_str!("../../examples/prep/programme.txt"),
        include_str!("../../examples/prep/draft.txt"),
    ] {
        let sheet = check::run("x.txt", source).expect("the text is read");
        let written = write::sheet_text(&sheet);
        assert_eq!(bytes(&written), bytes(source));
        let again = check::run("x.txt", &written).expect("what is written is read");
        let cards = |sheet: &check::Sheet| -> Vec<(String, Option<String>)> {
            let cards = sheet.text.cards.iter();
            cards
                .map(|(name, title)| (name.text.clone(), title.clone()))
                .collect()
        };
        assert_eq!(cards(&again), cards(&sheet));
        assert_eq!(again.text.title, sheet.text.title);
    }
}

#[test]
fn text_and_words_are_told_apart_by_what_they_are() {
    for case in generate::cases(33, 800) {
        let is_words = form(&case.bytes) == Form::Words;
        assert!(is_words || sheet::typings(&case.bytes).is_err(), "{}", case.name);
        if let Ok(text) = write::text(&case.bytes) {
            assert_eq!(form(text.as_bytes()), Form::Text, "{}", case.name);
            let sheet = load_sheet("x", text.as_bytes()).expect("the text is a sheet");
            let same = load_sheet("x", &case.bytes).expect("the words are a sheet");
            assert_eq!(sheet.typings, same.typings, "{}", case.name);
            assert_eq!((sheet.form, same.form), (Form::Text, Form::Words));
        }
    }
    for words in [&[][..], b"ab", b"\0\0\0\0", b"kin\0ds"] {
        assert_eq!(form(words), Form::Words);
    }
    for text in [
        &b"kinds: a"[..],
        b"\n\t\r\n# x",
        b"\xef\xbb\xbfk",
        b"\xe9\xe9\xe9\xe9",
    ] {
        assert_eq!(form(text), Form::Text);
    }
}

#[test]
fn a_text_that_is_not_utf_8_is_told_where() {
    let told = |bytes: &[u8]| match load_sheet("x", bytes) {
        Ok(_) => panic!("the text isn't a sheet"),
        Err(trouble) => trouble.to_string(),
    };
    let latin = told(b"kinds: a\nshape A = nothing\ncard x \"caf\xe9\"\n");
    assert_eq!(latin, "x:3:12: this isn't UTF-8; save the text as UTF-8");
    assert!(told(b"\xff\xfek\0i\0n\0").contains("a text in UTF-16"));
    assert_eq!(told(b""), "x: the file is empty");
}

#[test]
fn words_that_are_too_many_are_told_as_the_printer_tells_them() {
    let mut source = "kinds: a\nshape A = nothing\n".to_string();
    for card in 0..200 {
        source += &format!("card c{card}\n");
    }
    for link in 0..11_000 {
        source += &format!("link c{} a c{}\n", link / 200, link % 200);
    }
    let message = fault(&source);
    assert!(message.starts_with("x.txt: refused 60 0"), "{message}");
    assert!(
        message.contains("\n  its words take 66020 bytes\nx.txt:8395:12: refused 22 1: "),
        "{message}"
    );
}

#[test]
fn every_number_has_words() {
    let numbers = (1..=12)
        .chain(20..=25)
        .chain(30..=33)
        .chain(40..=43)
        .chain(60..=66);
    for number in numbers {
        assert_ne!(Refusal::at(number, 0).meaning(), "a refusal that isn't known");
    }
}
