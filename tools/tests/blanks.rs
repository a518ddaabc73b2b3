//! Blank cards, which no link touches: they aren't counted among the cards with no shape, neither listed nor hatched,
//! and all else is as for any card.

use prep_tools::draw::choice::Choice;
use prep_tools::draw::draw;
use prep_tools::generate::{self, MIDDLE, SMALL, TINY};
use prep_tools::numbers::Card;
use prep_tools::random::Random;
use prep_tools::sheet::{print, Files};
use prep_tools::text::check::{run, Sheet};
use prep_tools::text::machine;
use prep_tools::text::report::bare;
use prep_tools::text::roots::Roots;
use prep_tools::typing::{links, rounds, Setting};

/// One shape, which wants one link to a card that has it too.
const WANTS_ONE: [u16; 7] = [1, 1, 4, 256, 0, 1, 1];
/// One shape, which wants no links.
const WANTS_NONE: [u16; 4] = [1, 1, 1, 0];

/// What is printed about the largest typing of a sheet with no bookings.
fn printed(template: &[u16], script: &[u16]) -> String {
    let files = Files {
        template: template.to_vec(),
        script: script.to_vec(),
        bookings: vec![0],
    };
    let text = print(&files.bytes());
    let (largest, _) = text.split_once("smallest").expect("a sheet has both typings");
    largest.to_string()
}

#[test]
fn the_samples() {
    for (script, expected) in [
        (&[1, 0][..], "largest 2 1 0\ncard 0:\n"),
        (&[2, 1, 0, 0, 0], "largest 2 1 0\ncard 0: 0\ncard 1:\n"),
        (&[2, 1, 0, 0, 1], "largest 3 2 2\ncard 0:\ncard 1:\n"),
        (&[3, 1, 0, 0, 1], "largest 3 3 2\ncard 0:\ncard 1:\ncard 2:\n"),
    ] {
        assert_eq!(printed(&WANTS_ONE, script), expected, "{script:?}");
    }
}

#[test]
fn a_link_on_either_side_or_to_itself_makes_a_card_count() {
    // Cards with only arriving links, only leaving ones, or only one to itself, without a shape and with one.
    assert!(printed(&WANTS_ONE, &[2, 1, 0, 0, 1]).starts_with("largest 3 2 2\n"));
    assert!(printed(&WANTS_NONE, &[2, 1, 0, 0, 1]).starts_with("largest 2 1 1\ncard 0:\ncard 1: 0\n"));
    assert!(printed(&WANTS_NONE, &[1, 1, 0, 0, 0]).starts_with("largest 2 1 1\ncard 0:\n"));
    assert!(printed(&WANTS_ONE, &[2, 2, 0, 0, 1, 1, 0, 1]).starts_with("largest 1 0 0\n"));
    // Blank cards: first, between and last, without a shape and with one.
    assert!(printed(&WANTS_ONE, &[5, 2, 1, 0, 1, 3, 0, 1]).starts_with("largest 2 3 0\ncard 0:\ncard 1: 0\n"));
    assert!(
        printed(&WANTS_NONE, &[5, 2, 1, 0, 1, 3, 0, 1]).starts_with("largest 2 2 2\ncard 0: 0\ncard 1:\n")
    );
    assert!(printed(&WANTS_ONE, &[1024, 0]).starts_with("largest 2 1024 0\n"));
    assert!(printed(&WANTS_ONE, &[1024, 1, 1023, 0, 0]).starts_with("largest 3 1024 2\n"));
}

/// Whether some link touches a card, looked up link by link.
fn touched(setting: &Setting, card: Card) -> bool {
    let mut links = setting.script.links.iter();
    links.any(|link| link.from == card || link.to == card)
}

#[test]
fn both_methods_count_the_cards_with_some_link_and_no_shape() {
    let mut random = Random::new(51);
    let mut blank_and_bare = 0;
    for _ in 0..500 {
        let scale = random.pick(&[TINY, TINY, SMALL, MIDDLE]);
        let files = generate::any(&mut random, scale);
        let setting =
            Setting::read(&files.template, &files.script).expect("a generated sheet is well-formed");
        let (answer, grid) = links::largest(&setting);
        assert_eq!((answer, grid.clone()), rounds::largest(&setting), "{files:?}");
        let rows = grid.chunks(usize::from(setting.template.shapes()));
        let cards = setting.cards().zip(rows);
        let (counted, not_counted): (Vec<Card>, Vec<Card>) = cards
            .filter_map(|(card, row)| (!row.contains(&1)).then_some(card))
            .partition(|card| touched(&setting, *card));
        assert_eq!(answer.bare, counted.len(), "{files:?}");
        blank_and_bare += usize::from(!counted.is_empty() && !not_counted.is_empty());
    }
    assert!(
        blank_and_bare > 40,
        "only {blank_and_bare} sheets have cards of both sorts"
    );
}

/// Two blank cards, and two that a link joins; none has a shape.
const TEXT: &str = "\
kinds: guest
shape Item = guest[1;1]@Item
card first \"A pause\"
card quiz
card between
card ann
link quiz guest ann
";

fn sheet(source: &str) -> Sheet {
    run("x.txt", source).expect("the text is a sheet")
}

#[test]
fn check_speaks_of_the_cards_with_links() {
    let report = sheet(TEXT).report("x.txt");
    let lines: Vec<&str> = report.lines().collect();
    assert_eq!(
        lines[0],
        "x.txt: 4 cards, 1 link, 0 bookings; of the cards with links, 2 of 2 have no shape"
    );
    assert_eq!(lines[3], "largest: 3 rounds, 4 pairs struck");
    assert_eq!(report.matches("has no shape").count(), 2);
    assert!(!report.contains("A pause") && !report.contains("between"));
    let itself = TEXT
        .replace("quiz guest ann", "quiz guest quiz")
        .replace("card ann\n", "");
    let report = sheet(&itself).report("x.txt");
    assert!(
        report.contains("of the cards with links, 0 of 1 have no shape\n"),
        "{report}"
    );
    let two = TEXT.replace("guest[1;1]@Item", "nothing");
    let report = sheet(&two).report("x.txt");
    assert!(
        report.contains("of the cards with links, 1 of 2 has no shape\n"),
        "{report}"
    );
}

#[test]
fn why_a_booked_blank_card_cannot_have_its_shape_is_told() {
    let sheet = sheet(&format!("{TEXT}book first Item\n"));
    let report = sheet.report("x.txt");
    assert!(report.contains(
        "x.txt:3:6: A pause can't be Item: 1 guest wanted, 0 there\n  \
         refused 50 0 0 for radio: its bookings ask for first to have shape Item\n  this is booked by radio\n"
    ));
    assert!(
        report.ends_with("its guest ann can't be Item: 1 guest wanted, 0 there\n"),
        "{report}"
    );
    let written = machine::outcome(&sheet, "x.txt").to_string();
    assert!(written.contains("\"unmet\":{\"card\":0,\"card_name\":\"first\""));
}

#[test]
fn the_outcome_as_json_lists_as_many_cards_as_it_counts() {
    let sheet = sheet(TEXT);
    let listed = bare(&sheet, &Roots::new(&sheet.setting));
    assert_eq!(listed.iter().map(|(card, _)| *card).collect::<Vec<_>>(), [3, 1]);
    let written = machine::outcome(&sheet, "x.txt").to_string();
    assert!(written.contains("\"largest\":{\"rounds\":3,\"struck\":4,\"bare\":2,\"typing\":{}}"));
    assert!(written.contains("\"bare\":[{\"card\":3,"));
    assert!(!written.contains("{\"card\":0,") && !written.contains("{\"card\":2,"));
    assert!(written.contains("{\"name\":\"between\",\"title\":null,\"line\":5,\"column\":6}"));
}

/// The edge of a blank card with no shape, and its sign in the legend.
const DASHED: &str = "stroke=\"#8a93a0\" stroke-width=\"0.45\" stroke-dasharray=\"1.6 1.1\"";
const SIGN: &str = ">a blank card, no shape<";

/// The one page of a sheet's drawing.
fn page(source: &str) -> String {
    let mut pages = draw(&sheet(source), Choice::All).pages;
    assert_eq!(pages.len(), 1);
    pages.remove(0).svg
}

#[test]
fn a_blank_card_with_no_shape_is_dashed_and_not_hatched() {
    let text = page(TEXT);
    assert!(text.contains("4 pairs struck, 2 cards with links and no shape."));
    // Two cards of each sort, and each sort in the legend.
    assert_eq!(text.matches(DASHED).count(), 3);
    assert_eq!(text.matches(">no shape<").count(), 3);
    assert_eq!(text.matches("fill=\"url(#hatch)\"").count(), 3);
    assert_eq!(text.matches(SIGN).count(), 1);
    assert!(text.contains(">with links and no shape<"));
}

#[test]
fn a_blank_card_with_a_shape_is_drawn_like_any() {
    let text = page(&TEXT.replace("guest[1;1]@Item", "nothing"));
    assert!(text.contains("1 card with links and no shape."));
    assert_eq!(text.matches(DASHED).count() + text.matches(SIGN).count(), 0);
    assert_eq!(text.matches(">Item<").count(), 3);
}

#[test]
fn a_blank_card_of_the_unmet_pair_keeps_its_mark() {
    let text = page("kinds: a\nshape A = a[1;1]@A\ncard x \"A pause\"\nbook x A\n");
    assert!(text.contains("0 cards with links and no shape."));
    assert!(text.contains("“A pause” can't be A (50): 1 a wanted, 0 there."));
    assert!(text.contains(">the unmet pair of 50<") && text.contains(SIGN));
    // The card has a red edge; only the legend shows a dashed one.
    assert_eq!(text.matches(DASHED).count(), 1);
    assert!(!text.contains("fill=\"url(#hatch)\""));
}
