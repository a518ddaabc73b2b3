//! The page for designers: each of its examples is right, for the tools and for a printer, and what it says about
//! refusal 8 is so.

use prep_tools::fit::fit;
use prep_tools::page::examples;
use prep_tools::page::markdown::{items, Item};
use prep_tools::page::{self, Outcome};
use prep_tools::text::load::load_text;
use std::fs;

const PROGRAM: &str = env!("CARGO_BIN_EXE_prep-tools");
const PAGE: &str = concat!(env!("CARGO_MANIFEST_DIR"), "/../docs/HOW-TO-SAY.md");

fn the_page() -> String {
    fs::read_to_string(PAGE).expect("the page can be read")
}

/// What comes out of a page, by the tools and by their own printer, and what is told.
fn checked(page: &str) -> (Result<Outcome, String>, String) {
    let mut told = Vec::new();
    let printer = format!("{PROGRAM} print -");
    let outcome = page::check("page", page, Some(&printer), &mut told);
    (outcome, String::from_utf8_lossy(&told).into_owned())
}

#[test]
fn every_example_of_the_page_is_right() {
    let (outcome, told) = checked(&the_page());
    let outcome = outcome.expect("the page can be read");
    assert_eq!(outcome.differ, 0, "{told}");
    assert!(outcome.checked >= 80, "{told}");
    assert_eq!(outcome.shown, outcome.checked, "{told}");
}

/// The texts of the page.
fn texts() -> Vec<String> {
    let items = items(&the_page()).expect("the page can be read");
    let text = |item| match item {
        Item::Block(word, _, lines) if word == "text" => Some(lines.join("\n")),
        _ => None,
    };
    items.into_iter().filter_map(text).collect()
}

#[test]
fn the_page_has_a_dozen_shapes_and_the_way_round_refusal_8() {
    let page = the_page();
    let (shapes, refused) = page
        .split_once("## What refusal 8 gets in the way of")
        .expect("the page has such a part");
    assert!(shapes.matches("\n**").count() >= 12);
    assert!(refused.contains("### Two to four songs, or a talk with one song"));
    let examples = examples::read(&page).expect("the page can be read");
    let eights = examples
        .iter()
        .filter(|example| example.answer.starts_with("refused 8 "));
    assert_eq!(eights.count(), 3);
}

#[test]
fn every_text_of_the_page_can_be_pasted() {
    let texts = texts();
    assert!(texts.len() >= 20);
    let mut refused = 0;
    for text in &texts {
        if let Err(trouble) = load_text("x", text.as_bytes()) {
            assert!(trouble.to_string().contains(": refused 8 "), "{trouble}");
            refused += 1;
        }
    }
    assert_eq!(refused, 3);
}

const TEXT: &str = "```text\nkinds: song\nshape Set = song[2;4]@Song\nshape Song = nothing\ncard x\ncard y\n\
                    link x song y\nbook y Song\nbook 1 x Set\n```\n\n";

/// Tables that ask about the text, and how many of their answers are wrong.
const QUESTIONS: &[(&str, usize)] = &[
    (
        "| shape | links | answer |\n|---|---|---|\n| Set | `2 song` | `yes` |\n",
        0,
    ),
    (
        "| shape | links | answer |\n|---|---|---|\n| Set | `2 song` | `no` |\n",
        1,
    ),
    (
        "| shape | links | answer |\n|---|---|---|\n| Set | `-` | `no` |\n",
        0,
    ),
    (
        "| shape | links | answer |\n|---|---|---|\n| Song | `9 ^song` | `yes` |\n",
        0,
    ),
    (
        "| card | shape | answer |\n|---|---|---|\n| y | Song | `yes` |\n",
        0,
    ),
    (
        "| card | shape | answer |\n|---|---|---|\n| x | Song | `yes` |\n",
        1,
    ),
    (
        "| card | shape | answer |\n|---|---|---|\n| x | Set | `no` |\n",
        0,
    ),
    (
        "| desk | answer |\n|---|---|\n| radio | `yes` |\n| 1 | `no` |\n",
        0,
    ),
    ("| desk | answer |\n|---|---|\n| television | `yes` |\n", 1),
    ("| answer | why |\n|---|---|\n| `kinds 1 shapes 2` | |\n", 0),
    ("| number | answer |\n|---|---|\n| 8 | `refused 8 3` |\n", 1),
];

#[test]
fn wrong_answers_about_a_text_are_noticed() {
    for (table, wrong) in QUESTIONS {
        let (outcome, told) = checked(&format!("{TEXT}{table}"));
        let outcome = outcome.expect("the page can be read");
        assert_eq!(outcome.differ, *wrong, "{table}{told}");
        assert_eq!(outcome.shown, outcome.checked, "{table}{told}");
    }
}

#[test]
fn questions_that_make_no_sense_are_errors_with_their_lines() {
    let table = "| shape | links | answer |\n|---|---|---|\n";
    for (page, error) in [
        (
            format!("{TEXT}A page.\n"),
            "page:1: nothing is asked about the text",
        ),
        (
            format!("{TEXT}{table}| Sett | `1 song` | `yes` |\n"),
            "page:14: the text has no shape \"Sett\"",
        ),
        (
            format!("{TEXT}{table}| Set | `1 sing` | `yes` |\n"),
            "page:14: the text has no kind \"sing\"",
        ),
        (
            format!("{TEXT}{table}| Set | `song` | `yes` |\n"),
            "page:14: \"song\" isn't a count and a kind",
        ),
        (
            format!("{TEXT}| desk | answer |\n|---|---|\n| tv | `yes` |\n"),
            "page:14: no desk is called \"tv\"",
        ),
        (
            format!("{table}| Set | `1 song` | `yes` |\n"),
            "page:3: nothing is asked by the columns \"shape links\"",
        ),
        (
            "```text\nkinds: a\nshape A = b[0;1]@A\n```\n".to_string(),
            "page:1: text:2:11: no kind is named `b`, perhaps `a`",
        ),
    ] {
        assert_eq!(checked(&page).0, Err(error.to_string()));
    }
}

/// A part as it is and with each sign.
fn signed(part: Vec<u16>) -> impl Iterator<Item = Vec<u16>> {
    let signs: [&[u16]; 4] = [&[], &[1], &[2], &[3]];
    signs.into_iter().map(move |sign| [sign, &part[..]].concat())
}

/// Each part of one link of a kind with bounds up to the most, or none.
fn links(kind: u16, most: u16) -> Vec<Vec<u16>> {
    let bounds = (0..=most).flat_map(|low| (low..=most).chain([65535]).map(move |high| [low, high]));
    let link = |[low, high]: [u16; 2]| signed(vec![256 + kind, 0, low, high]);
    bounds.flat_map(link).collect()
}

/// Whether a part takes two to four songs or a talk with one song, and nothing else, by its counts.
fn says_it(part: &[u16]) -> bool {
    let template = [&[2, 1, part.len() as u16], part].concat();
    let mut counts = (0..=2).flat_map(|talks| (0..=5).map(move |songs| (songs, talks)));
    counts.all(|(songs, talks)| {
        let is_wanted = talks == 0 && (2..=4).contains(&songs) || (songs, talks) == (1, 1);
        fit(&template, 0, &[songs, talks, 0, 0]) == Ok(is_wanted)
    })
}

#[test]
fn no_one_shape_says_two_to_four_songs_or_a_talk_with_one() {
    let mut tried = 0;
    for song in links(0, 4) {
        for talk in links(1, 2) {
            for group in [16, 17] {
                for part in signed([&[group, 2], &song[..], &talk].concat()) {
                    assert!(!says_it(&part), "{part:?}");
                    tried += 1;
                }
            }
        }
    }
    assert_eq!(tried, 23_040);
}
