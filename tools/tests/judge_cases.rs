//! The cases for *Judge a grid*: the mix of the random ones, and what the fixed ones have.

use prep_tools::desk::Desk;
use prep_tools::generate::judging::{self, JudgeCase};
use prep_tools::labels::{Label, Way};
use prep_tools::numbers::{Card, Shape};
use prep_tools::sheet::Files;
use prep_tools::template::Part;
use prep_tools::text::reasons::{asked_for, own_misfit};
use prep_tools::typing::judge::{answer, judge};
use prep_tools::typing::met::chosen_for;
use prep_tools::typing::{bookings, closure, links, Pair, Setting, Smallest};
use std::collections::BTreeMap;

/// What the quick method says about a case.
fn quick(files: &Files, desk: u16, grid: &[u8]) -> String {
    answer(judge(&files.template, &files.script, &files.bookings, desk, grid))
}

/// How often each answer is given, by its number; accepted is 0.
fn tally(cases: impl Iterator<Item = JudgeCase>) -> BTreeMap<u16, usize> {
    let mut tally = BTreeMap::new();
    for case in cases {
        let line = case.answer();
        assert_eq!(line, quick(&case.files, case.desk, &case.grid), "{}", case.name);
        let number = match line.split(' ').nth(1) {
            None => 0,
            Some(number) => number.parse().expect("a refusal has a number"),
        };
        *tally.entry(number).or_insert(0) += 1;
    }
    tally
}

#[test]
fn every_answer_is_frequent_among_the_random_cases() {
    let fixed = judging::fixed().len();
    let tally = tally(judging::cases(33, fixed + 3600).skip(fixed));
    let count = |numbers: &[u16]| -> usize { numbers.iter().filter_map(|number| tally.get(number)).sum() };
    let of_files: Vec<u16> = (1..=12).chain(20..=25).chain(30..=33).chain(64..=66).collect();
    for number in &of_files {
        assert!(count(&[*number]) >= 5, "{number}: {tally:?}");
    }
    assert!(count(&of_files) > 400 && count(&[0]) > 500, "{tally:?}");
    assert!(count(&[65]) > 20, "{tally:?}");
    assert!(count(&[40]) > 200 && count(&[61]) > 200, "{tally:?}");
    assert!(count(&[62]) > 500 && count(&[63]) > 300, "{tally:?}");
    assert_eq!(count(&of_files) + count(&[0, 40, 61, 62, 63]), 3600, "{tally:?}");
}

#[test]
fn every_answer_is_frequent_among_the_fixed_cases() {
    let tally = tally(judging::fixed().into_iter());
    for (number, least) in [
        (0, 60),
        (40, 25),
        (61, 20),
        (62, 80),
        (63, 25),
        (65, 25),
        (66, 60),
    ] {
        assert!(tally[&number] >= least, "{number}: {tally:?}");
    }
}

#[test]
fn many_grids_are_accepted_that_are_neither_typing() {
    let (mut top, mut bottom, mut neither) = (0, 0, 0);
    for case in judging::cases(34, 1500).filter(|case| case.answer() == "accepted") {
        let setting = Setting::read(&case.files.template, &case.files.script).expect("accepted");
        let booked = bookings::read(&setting, &case.files.bookings).expect("accepted");
        let booked = bookings::of(Desk::numbered(case.desk).expect("accepted"), &booked);
        let (smallest, least) = closure::smallest(&setting, &booked);
        assert!(matches!(smallest, Smallest::Pairs(_)), "{}", case.name);
        let is_top = case.grid == links::largest(&setting).1;
        let is_bottom = case.grid == least;
        top += usize::from(is_top && !is_bottom);
        bottom += usize::from(is_bottom && !is_top);
        neither += usize::from(!is_top && !is_bottom);
    }
    let told = format!("{top} the largest, {bottom} the smallest, {neither} neither");
    assert!(top > 50 && bottom > 50 && neither > 50, "{told}");
}

/// Cases at the limits, and what is said about them.
const LIMITS: [(&str, &str); 30] = [
    ("full-accepted", "accepted"),
    ("full-last-pair", "refused 62 1023 31"),
    ("full-both-ways-accepted", "accepted"),
    ("full-both-ways-last-pair", "refused 62 1023 31"),
    ("full-open-accepted", "accepted"),
    ("last-byte", "refused 61 32767"),
    ("last-byte-missing", "refused 40 0"),
    ("booked-each-last-card", "refused 63 3071"),
    ("booked-backwards-last-card", "refused 63 2"),
    ("booked-same-last-card", "refused 65 5"),
    ("booked-each-held", "accepted"),
    ("booked-one-more-held", "refused 31 0"),
    ("ring-1024", "accepted"),
    ("ring-1024-last-card", "refused 62 1022 0"),
    ("chain-1024", "refused 62 1023 0"),
    ("back-ring-1024", "accepted"),
    ("back-ring-1024-last-card", "refused 62 0 0"),
    ("back-chain-1024", "refused 62 0 0"),
    ("longest-grid", "refused 40 0"),
    ("longest-file", "refused 30 0"),
    ("template-4096", "accepted"),
    ("template-4097", "refused 1 0"),
    ("repeat-most-cards-each", "accepted"),
    ("repeat-most-cards-last-of-first", "refused 65 3071"),
    ("repeat-most-shapes-each", "accepted"),
    ("desks-most-in-turn", "accepted"),
    ("desks-most-by-both", "accepted"),
    ("desks-most-one-more", "refused 31 0"),
    ("desks-most-stored", "refused 30 0"),
    ("repeat-most-shapes-last-of-next", "refused 65 3071"),
];

#[test]
fn the_limits_are_reached() {
    let fixed = judging::fixed();
    let named = |name: &str| {
        let case = fixed.iter().find(|case| case.name == name);
        case.expect("there is such a case")
    };
    for (name, answer) in LIMITS {
        assert_eq!(named(name).answer(), answer, "{name}");
    }
    for name in [
        "full-accepted",
        "full-last-pair",
        "full-both-ways-accepted",
        "full-open-accepted",
    ] {
        let Files {
            template,
            script,
            bookings,
        } = &named(name).files;
        assert_eq!((template.len(), &template[..2]), (4096, &[64, 32][..]));
        assert_eq!((&script[..2], bookings[0]), (&[1024, 8192][..], 1024));
    }
}

/// What a case shows about links that arrive: an accepted grid that has a pair with one, or a pair that isn't met
/// because of what arrives, because of the card at its start, or because of the card at which it points.
fn shown(case: &JudgeCase) -> Option<&'static str> {
    let line = case.answer();
    let setting = Setting::read(&case.files.template, &case.files.script).ok()?;
    if line == "accepted" {
        let mut pairs = setting
            .pairs()
            .filter(|pair| case.grid[setting.place(*pair)] == 1);
        let arrives = |pair: Pair| {
            chosen_for(&setting, pair)
                .iter()
                .any(|end| end.label.way == Way::Incoming)
        };
        return pairs.any(arrives).then_some("accepted");
    }
    let place = line.strip_prefix("refused 62 ")?;
    let (card, shape) = place.split_once(' ')?;
    let pair = (Card(card.parse().ok()?), Shape(shape.parse().ok()?));
    let misfit = own_misfit(&setting, pair);
    let is_counted = misfit.is_some();
    let labels = match misfit {
        Some(misfit) => misfit.lacks.iter().map(|lack| lack.label).collect(),
        None => missing(&setting, &case.grid, pair),
    };
    let mut named = setting.template.parts().flat_map(Part::links);
    let names_arriving = named.any(|link| link.label.way == Way::Incoming);
    match (is_counted, labels.iter().map(|label| label.way).max()?) {
        (true, Way::Incoming) => Some("counts"),
        (false, Way::Incoming) => Some("the start"),
        (false, Way::Outgoing) if names_arriving => Some("the target"),
        _ => None,
    }
}

/// The labels of what a pair needs and a grid lacks.
fn missing(setting: &Setting, grid: &[u8], pair: Pair) -> Vec<Label> {
    let asked = asked_for(setting, pair).into_iter();
    asked
        .filter(|(_, far)| grid[setting.place(*far)] == 0)
        .map(|(label, _)| label)
        .collect()
}

#[test]
fn links_that_arrive_come_up_in_every_answer() {
    let fixed = judging::fixed();
    let random: Vec<JudgeCase> = judging::cases(35, fixed.len() + 1200).skip(fixed.len()).collect();
    for (name, cases, least) in [("fixed", fixed, 10), ("random", random, 10)] {
        let mut tally: BTreeMap<&str, usize> = BTreeMap::new();
        for what in cases.iter().filter_map(shown) {
            *tally.entry(what).or_default() += 1;
        }
        assert_eq!(tally.len(), 4, "{name}: {tally:?}");
        assert!(tally.values().all(|count| *count >= least), "{name}: {tally:?}");
    }
}

/// The number of the first fault of a case that is spoiled in several ways, by the name of its first stage.
const STAGES: [(&str, [&str; 2]); 8] = [
    ("template", ["refused 2 0", "refused 12 15"]),
    ("script", ["refused 21 0", "refused 23 10"]),
    ("bookings", ["refused 31 0", "refused 33 9"]),
    ("desk", ["refused 66 0", "refused 66 0"]),
    ("size", ["refused 40 0", "refused 40 0"]),
    ("bytes", ["refused 61 1", "refused 61 5"]),
    ("pairs", ["refused 62 0 0", "refused 62 2 0"]),
    ("held", ["refused 63 2", "refused 63 8"]),
];

#[test]
fn of_several_faults_the_first_is_told() {
    let fixed = judging::fixed();
    let spoiled: Vec<&JudgeCase> = fixed
        .iter()
        .filter(|case| case.name.starts_with("order-"))
        .collect();
    for (order, (stage, answers)) in STAGES.iter().enumerate() {
        for (end, answer) in ["early", "late"].iter().zip(answers) {
            let name = format!("order-{stage}-{end}");
            let of_stage: Vec<_> = spoiled
                .iter()
                .filter(|case| case.name.starts_with(&name))
                .collect();
            // Alone, with a fault of each later stage, and with all of these.
            let later = STAGES.len() - 1 - order;
            assert_eq!(of_stage.len(), 1 + later + usize::from(later > 1), "{name}");
            for case in of_stage {
                assert_eq!(case.answer(), *answer, "{}", case.name);
            }
        }
    }
}

#[test]
fn a_repeat_comes_before_every_fault_of_the_grid() {
    let fixed = judging::fixed();
    let found = fixed.iter().filter(|case| case.name.starts_with("repeat-and-"));
    let mut faults = Vec::new();
    for case in found {
        assert_eq!(case.answer(), "refused 65 5", "{}", case.name);
        let mut once = case.clone();
        once.files.bookings = vec![1, 0, 2, 1];
        let line = once.answer();
        faults.push(line.split(' ').nth(1).expect("the grid has a fault").to_string());
    }
    assert_eq!(faults, ["40", "40", "40", "61", "62", "63"]);
}

#[test]
fn only_cases_about_repeats_or_faults_have_repeats() {
    let fixed = judging::fixed().len();
    let about = [
        &["sample-", "booked-same-", "repeat-", "desks-"][..],
        &["aimed-", "knot-", "several-"],
    ];
    for (number, case) in judging::cases(36, fixed + 900).enumerate() {
        let of_sort = |start: &&str| case.name.starts_with(start);
        if case.answer().starts_with("refused 65 ") {
            assert!(
                about[usize::from(number >= fixed)].iter().any(of_sort),
                "{}",
                case.name
            );
        }
    }
}
