//! The cases for *Tidy bookings*: the mix of the random ones, and what the fixed ones have.

use prep_tools::generate::tidying::{self, samples, TidyCase};
use prep_tools::page::examples::{self, Operation};
use prep_tools::sheet::Files;
use prep_tools::typing::{bookings, Pair};
use prep_tools::typing::{closure, Setting, Smallest};
use std::collections::{BTreeMap, BTreeSet};
use std::fs;

const PAGE: &str = concat!(env!("CARGO_MANIFEST_DIR"), "/../docs/FORMAT.md");

#[test]
fn the_examples_of_the_page_are_the_samples() {
    let page = fs::read_to_string(PAGE).expect("the page can be read");
    let examples = examples::read(&page).expect("the page has examples");
    let on_the_page: Vec<_> = examples
        .into_iter()
        .filter(|example| example.question.operation == Operation::Tidy)
        .collect();
    let samples = samples::samples();
    assert_eq!(on_the_page.len(), samples.len());
    for (example, sample) in on_the_page.iter().zip(samples) {
        let question = &example.question;
        let files = Files {
            template: question.template.clone(),
            script: question.script.clone(),
            bookings: question.bookings.clone(),
        };
        assert_eq!((&files, question.words), (&sample.files, sample.words));
        assert!(sample.answer().starts_with(&example.answer), "{}", example.answer);
    }
}

/// The number of a line's refusal; 0 if a list is written.
fn number(line: &str) -> u16 {
    let refused = line
        .strip_prefix("refused ")
        .and_then(|rest| rest.split(' ').next());
    refused.map_or(0, |number| number.parse().expect("a refusal has a number"))
}

/// How often each answer is given, by its number; 0 is that a list is written.
fn tally(cases: &[TidyCase]) -> BTreeMap<u16, usize> {
    let mut tally = BTreeMap::new();
    for case in cases {
        let line = case.answer();
        *tally.entry(number(&line)).or_insert(0) += 1;
        if number(&line) > 0 {
            let (_, buffer) = line.split_once(" :").expect("a line has a buffer");
            assert_eq!(buffer, " 7".repeat(case.words), "{}", case.name);
        }
    }
    tally
}

/// The refusals of the files, which 65 and 66 aren't among, and 40.
fn refusals() -> BTreeSet<u16> {
    let of_files = (1..=12).chain([64]).chain(20..=25).chain(30..=33);
    of_files.chain([40]).collect()
}

#[test]
fn the_fixed_cases_have_every_refusal_but_65_and_66() {
    let tally = tally(&tidying::fixed());
    let mut owed = refusals();
    owed.insert(0);
    assert_eq!(tally.keys().copied().collect::<BTreeSet<_>>(), owed, "{tally:?}");
    for (number, least) in [(0, 100), (30, 15), (31, 10), (32, 10), (33, 10), (40, 20)] {
        assert!(tally[&number] >= least, "{number}: {tally:?}");
    }
}

/// The bookings of a case whose list is written, and its sheet.
fn stored(case: &TidyCase) -> Option<(Setting, Vec<Pair>)> {
    let setting = Setting::read(&case.files.template, &case.files.script).ok()?;
    let booked = bookings::read_stored(&setting, &case.files.bookings).ok()?;
    (number(&case.answer()) == 0).then_some((setting, booked))
}

/// What a case shows about a list that is written.
fn shown(case: &TidyCase) -> Option<Vec<&'static str>> {
    let (setting, booked) = stored(case)?;
    let written: usize = case.answer().split(' ').nth(1)?.parse().ok()?;
    let kept = (written - 1) / 3;
    let is_met = matches!(closure::smallest(&setting, &booked).0, Smallest::Pairs(_));
    let beside = booked.windows(2).any(|two| two[0] == two[1]);
    let apart = (2..booked.len()).any(|later| booked[..later - 1].contains(&booked[later]));
    let all = [
        ("none is booked", booked.is_empty()),
        ("none is dropped", !booked.is_empty() && kept == booked.len()),
        ("one is dropped", kept + 1 == booked.len()),
        ("many are dropped", kept + 1 < booked.len()),
        ("all are alike", kept == 1 && booked.len() > 1),
        ("a repeat beside its first", beside),
        ("a repeat apart from its first", apart),
        ("dropped, met", kept < booked.len() && is_met),
        ("dropped, not met", kept < booked.len() && !is_met),
    ];
    Some(
        all.into_iter()
            .filter(|(_, is_shown)| *is_shown)
            .map(|(what, _)| what)
            .collect(),
    )
}

#[test]
fn lists_of_every_sort_come_up() {
    let fixed = tidying::fixed();
    let random: Vec<TidyCase> = tidying::cases(35, fixed.len() + 900).skip(fixed.len()).collect();
    for (name, cases, least) in [("fixed", fixed, 4), ("random", random, 20)] {
        let mut tally: BTreeMap<&str, usize> = BTreeMap::new();
        for what in cases.iter().filter_map(shown).flatten() {
            *tally.entry(what).or_default() += 1;
        }
        assert_eq!(tally.len(), 9, "{name}: {tally:?}");
        assert!(tally.values().all(|count| *count >= least), "{name}: {tally:?}");
    }
}

#[test]
fn every_answer_comes_up_among_the_random_cases() {
    let fixed = tidying::fixed().len();
    let random: Vec<TidyCase> = tidying::cases(36, fixed + 3000).skip(fixed).collect();
    let tally = tally(&random);
    for number in refusals() {
        assert!(
            tally.get(&number).is_some_and(|count| *count >= 3),
            "{number}: {tally:?}"
        );
    }
    assert!(
        tally[&0] > 1500 && tally[&40] > 300 && !tally.contains_key(&65) && !tally.contains_key(&66),
        "{tally:?}"
    );
}

/// Cases at the limit, and the start and the end of the line that is owed.
const LIMITS: [(&str, &str, &str); 12] = [
    (
        "repeat-most-cards-each",
        "written 3073 : 1024 0 0 0 0 0 1 0 1 0",
        " 0 511 1",
    ),
    (
        "repeat-most-cards-last-of-first",
        "written 3070 : 1023 0 0 0 0 0 1",
        " 0 511 0 7 7 7",
    ),
    (
        "repeat-most-cards-last-of-next",
        "written 3070 : 1023 0 0 0 0 0 1",
        " 0 511 0 7 7 7",
    ),
    (
        "repeat-most-cards-second",
        "written 3070 : 1023 0 0 0 0 1 0",
        " 0 511 1 7 7 7",
    ),
    ("repeat-most-cards-all", "written 4 : 1 0 511 1 7 7 7", " 7 7"),
    ("repeat-most-cards-one-more", "refused 31 0 : 7 7", " 7 7"),
    (
        "repeat-most-shapes-each",
        "written 3073 : 1024 0 0 0 0 0 1 0 0 2",
        " 0 31 31",
    ),
    ("repeat-most-shapes-all", "written 4 : 1 0 31 31 7 7", " 7 7"),
    (
        "most-side-by-side",
        "written 1537 : 512 0 0 0 0 0 1 0 0 2",
        " 7 7",
    ),
    (
        "most-there-and-back",
        "written 1537 : 512 0 0 0 0 0 1 0 0 2",
        " 7 7",
    ),
    ("most-card", "written 97 : 32 0 0 0 0 0 1 0 0 2", " 7 7"),
    ("most-shape", "written 49 : 16 0 0 0 0 1 0 0 2 0", " 7 7"),
];

#[test]
fn the_limits_are_reached() {
    let fixed = tidying::fixed();
    for (name, start, end) in LIMITS {
        let case = fixed.iter().find(|case| case.name == name);
        let case = case.expect("there is such a case");
        let line = case.answer();
        assert!(line.starts_with(start) && line.ends_with(end), "{name}: {line}");
        assert_eq!(
            line.split(' ').count(),
            3 + case.words + usize::from(number(&line) > 0)
        );
        let more = usize::from(name.ends_with("one-more"));
        assert_eq!(
            (case.files.bookings[0], case.words),
            (1024 + more as u16, 3073 + 3 * more)
        );
    }
}

#[test]
fn of_several_faults_the_first_is_told() {
    let fixed = tidying::fixed();
    let told = |name: &str| {
        let case = fixed.iter().find(|case| case.name == name);
        let line = case.expect("there is such a case").answer();
        line.split(" :").next().expect("a line has an answer").to_string()
    };
    let faults = [
        ("template", "refused 2 0"),
        ("template-end", "refused 12 15"),
        ("script", "refused 21 0"),
        ("script-end", "refused 23 10"),
        ("empty", "refused 30 0"),
        ("over", "refused 31 0"),
        ("size", "refused 30 0"),
        ("card", "refused 32 5"),
        ("shape", "refused 33 8"),
        ("stored", "refused 40 0"),
        ("short", "refused 40 0"),
        ("long", "refused 40 0"),
        ("none", "refused 40 0"),
    ];
    assert_eq!(told("order"), "written 7");
    for (order, (first, answer)) in faults.into_iter().enumerate() {
        assert_eq!(told(&format!("order+{first}")), answer);
        // Of the faults of the buffer there can be only one.
        for (second, _) in faults[order + 1..].iter().filter(|_| order < 9) {
            assert_eq!(told(&format!("order+{first}+{second}")), answer, "{second}");
        }
    }
}
