//! Repeats in generated booking lists: whole sheets have none, and damaged ones have them in every place. Which desk
//! books what: all of it one desk, or both.

use prep_tools::generate::repeats::{fixed, put};
use prep_tools::generate::{self, heavy, special, FULL, SMALL, TINY};
use prep_tools::random::Random;
use prep_tools::refusal::Refusal;
use prep_tools::sheet::{self, Files};
use prep_tools::typing::{bookings, Setting};
use std::collections::BTreeMap;

/// Whether some booking of a list that has its right size is there twice, by looking at all that come before it.
fn has_repeat(words: &[u16]) -> bool {
    let list: Vec<[u16; 3]> = bookings::cut(words);
    (0..list.len()).any(|later| list[..later].contains(&list[later]))
}

#[test]
fn whole_sheets_have_no_repeats() {
    let mut random = Random::new(91);
    let mut many = 0;
    for number in 0..600 {
        let scale = random.pick(&[TINY, SMALL, SMALL, FULL]);
        let files = match number % 4 {
            0 => generate::any(&mut random, scale),
            1 => generate::flat::flat(&mut random, scale),
            2 => generate::alike::alike(&mut random, scale),
            _ => sheet::split(&special::random(&mut random).bytes).expect("a sheet"),
        };
        assert!(!has_repeat(&files.bookings), "{:?}", files.bookings);
        many += usize::from(files.bookings[0] > 100);
    }
    assert!(many > 30, "only {many} lists are long");
    for files in [
        heavy::densest(),
        heavy::densest_both_ways(),
        heavy::densest_open(),
    ] {
        assert!(files.bookings[0] == 1024 && !has_repeat(&files.bookings));
    }
}

#[test]
fn sheets_at_the_limits_have_as_many_different_bookings_as_can_be() {
    for seed in 0..12 {
        let files = special::limits(&mut Random::new(seed));
        assert_eq!((files.bookings[0], files.bookings.len()), (1024, 3073));
        assert!(!has_repeat(&files.bookings), "{seed}");
    }
}

#[test]
fn only_cases_about_faults_have_repeats() {
    let mut names = BTreeMap::new();
    for case in generate::cases(92, generate::fixed() + 3000) {
        let refused = sheet::typings(&case.bytes).map(|_| ());
        if matches!(refused, Err(Refusal { number: 65, .. })) {
            let name = case.name.split('-').next().unwrap_or_default().to_string();
            *names.entry(name).or_insert(0) += 1;
        }
    }
    let found: Vec<&str> = names.keys().map(String::as_str).collect();
    assert_eq!(
        found,
        ["aimed", "desks", "edge", "knot", "repeat", "several"],
        "{names:?}"
    );
    assert!(names["aimed"] > 40 && names["repeat"] > 15, "{names:?}");
}

/// What is said about a list that a fault was put into.
fn said(files: &Files) -> &'static str {
    let setting = Setting::read(&files.template, &files.script).expect("a generated sheet is well-formed");
    let place = match bookings::read(&setting, &files.bookings) {
        Ok(_) => return "no repeat",
        Err(Refusal { number: 65, place }) => place,
        Err(Refusal { number: 30, .. }) => return "size",
        Err(Refusal { number: 32, .. }) => return "card",
        Err(Refusal { number: 33, .. }) => return "shape",
        Err(Refusal { number: 66, .. }) => return "desk",
        Err(refusal) => panic!("{refusal}"),
    };
    let is_whole = bookings::read_with_repeats(&setting, &files.bookings).is_ok();
    let list: Vec<[u16; 3]> = bookings::cut(&files.bookings);
    let later = (place - 2) / 3;
    match list[..later].iter().position(|pair| *pair == list[later]) {
        None => panic!("{:?} isn't a repeat at {place}", files.bookings),
        _ if !is_whole => "before another fault",
        Some(_) if later == 1023 => "the last of 1,024",
        Some(first) if first + 1 == later => "next",
        Some(_) => "far",
    }
}

#[test]
fn faults_aimed_at_65_reach_it_in_every_place() {
    let mut random = Random::new(93);
    let mut tally: BTreeMap<&str, usize> = BTreeMap::new();
    for number in 0..1500 {
        let scale = if number % 5 == 0 { FULL } else { SMALL };
        let mut files = generate::any(&mut random, scale);
        let (cards, shapes) = (files.script[0], files.template[1]);
        put(&mut random, &mut files.bookings, cards, shapes);
        *tally.entry(said(&files)).or_default() += 1;
    }
    assert_eq!(tally.len(), 9, "{tally:?}");
    assert!(tally.values().all(|count| *count >= 10), "{tally:?}");
    assert!(tally["next"] > 300 && tally["far"] > 200, "{tally:?}");
}

#[test]
fn a_repeat_is_put_into_any_words() {
    let mut random = Random::new(94);
    for length in [0, 1, 2, 3, 4, 5, 3072, 3073, 3076, 9000] {
        for _ in 0..60 {
            let mut words = vec![0; length];
            put(&mut random, &mut words, 0, 1);
            put(&mut random, &mut words, 1024, 32);
            assert!(words.len() <= 3074, "{} words", words.len());
        }
    }
}

/// The fixed inputs about repeats that are refused, and for what.
const REFUSED: [(&str, &str); 36] = [
    ("radio-next", "65 5"),
    ("radio-far", "65 8"),
    ("radio-not-met", "65 5"),
    ("radio-thrice", "65 5"),
    ("radio-two-pairs", "65 8"),
    ("radio-of-second", "65 8"),
    ("radio-each-and-first", "65 20"),
    ("radio-each-and-last", "65 20"),
    ("radio-then-32", "65 5"),
    ("radio-then-33", "65 5"),
    ("radio-then-both", "65 5"),
    ("radio-after-32", "32 2"),
    ("radio-after-33", "33 3"),
    ("radio-around-32", "32 5"),
    ("radio-around-33", "33 6"),
    ("radio-of-32", "32 2"),
    ("radio-of-33", "33 3"),
    ("radio-word-more", "30 0"),
    ("radio-word-less", "30 0"),
    ("radio-count-under", "30 0"),
    ("radio-count-over", "30 0"),
    ("radio-count-1025", "31 0"),
    ("refused-template", "2 0"),
    ("refused-template-end", "12 15"),
    ("refused-script", "21 0"),
    ("refused-script-end", "20 0"),
    ("most-cards-last-of-first", "65 3071"),
    ("most-cards-last-of-next", "65 3071"),
    ("most-cards-second", "65 5"),
    ("most-cards-all", "65 5"),
    ("most-cards-one-more", "31 0"),
    ("most-shapes-last-of-first", "65 3071"),
    ("most-shapes-last-of-next", "65 3071"),
    ("most-shapes-second", "65 5"),
    ("most-shapes-all", "65 5"),
    ("most-shapes-one-more", "31 0"),
];

#[test]
fn the_fixed_inputs_about_repeats_are_refused_or_not() {
    let owed: BTreeMap<String, &str> = REFUSED
        .into_iter()
        .map(|(name, answer)| (format!("repeat-{name}"), answer))
        .collect();
    let mut accepted = Vec::new();
    for case in fixed::fixed() {
        let printed = sheet::print(&case.bytes);
        // What is refused for the radio is refused for the television too.
        match owed.get(&case.name.replace("television", "radio")) {
            Some(answer) => assert_eq!(printed, format!("refused {answer}\n"), "{}", case.name),
            None => {
                assert!(printed.starts_with("largest "), "{}", case.name);
                accepted.push(case.name);
            }
        }
    }
    let others = accepted.iter().filter(|name| !name.contains("-no-"));
    let others: Vec<&str> = others.map(String::as_str).collect();
    assert_eq!(others, ["repeat-most-cards-each", "repeat-most-shapes-each"]);
    // Six lists of each desk are nearly repeats, and eight of the television are repeats.
    assert_eq!(
        (accepted.len(), fixed::fixed().len()),
        (14, REFUSED.len() + 14 + 8)
    );
}

#[test]
fn generated_lists_are_of_either_desk_and_of_both() {
    let mut random = Random::new(95);
    let mut tally: BTreeMap<&str, usize> = BTreeMap::new();
    for number in 0..800 {
        let scale = if number % 8 == 0 { FULL } else { SMALL };
        let files = generate::any(&mut random, scale);
        let list: Vec<[u16; 3]> = bookings::cut(&files.bookings);
        let by = |desk: u16| list.iter().any(|[whose, ..]| *whose == desk);
        let shared = |[desk, card, shape]: &[u16; 3]| list.contains(&[1 - desk, *card, *shape]);
        let sort = match (by(0), by(1)) {
            (false, false) => "none",
            (true, false) => "radio",
            (false, true) => "television",
            _ if list.iter().any(shared) => "both, some pairs",
            _ => "both",
        };
        *tally.entry(sort).or_default() += 1;
    }
    assert_eq!(tally.len(), 5, "{tally:?}");
    assert!(tally.values().all(|count| *count > 40), "{tally:?}");
}
