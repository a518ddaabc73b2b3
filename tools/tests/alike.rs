//! The generator's sheets with alike cards: how the kinds of their cards differ, and that shapes of each sort tell
//! apart cards whose kinds differ in each of these ways.

use prep_tools::generate::alike::{self, fixed, kinds};
use prep_tools::generate::alike_cases;
use prep_tools::labels::Way;
use prep_tools::numbers::Card;
use prep_tools::random::Random;
use prep_tools::sheet::{self, Files};
use prep_tools::template::{Definition, Part};
use prep_tools::typing::{counting, links, Setting};
use std::collections::{BTreeMap, BTreeSet};

/// How two cards differ, what tells them apart, and in how many sheets that comes up.
type Tally = BTreeMap<(&'static str, &'static str), usize>;

/// The kinds of the links that start at a card, ascending.
fn kinds_of(setting: &Setting, card: Card) -> Vec<u16> {
    let ends = setting.script.ends_of(card).iter();
    let starting = ends.filter(|end| end.label.way == Way::Outgoing);
    starting.map(|end| end.label.kind.0).collect()
}

fn distinct(kinds: &[u16]) -> BTreeSet<&u16> {
    kinds.iter().collect()
}

/// In which ways the kinds of two cards differ.
fn differing(one: &[u16], other: &[u16]) -> Vec<&'static str> {
    let as_many = one.len() == other.len();
    let ways = [
        ("alike", one == other),
        ("other numbers", as_many && distinct(one) == distinct(other)),
        ("one more", one.len() + 1 == other.len() && other.starts_with(one)),
        (
            "another first one",
            as_many && one.len() > 1 && one[1..] == other[1..],
        ),
        ("the same mark", kinds::mark(one) == kinds::mark(other)),
        (
            "the same mark, as many",
            as_many && kinds::mark(one) == kinds::mark(other),
        ),
    ];
    // What is alike doesn't differ in any other way.
    let most = if one == other { 1 } else { ways.len() };
    let holding = ways.into_iter().filter(|(_, holds)| *holds);
    holding.map(|(way, _)| way).take(most).collect()
}

/// A part and all within it.
fn within(part: &Part) -> Vec<&Part> {
    let inner = match part {
        Part::Star(inner) | Part::Plus(inner) | Part::Optional(inner) => within(inner),
        Part::Choice(parts) | Part::All(parts) => parts.iter().flat_map(within).collect(),
        Part::Nothing | Part::Link(_) => Vec::new(),
    };
    [vec![part], inner].concat()
}

/// What a shape is.
fn sorts(definition: &Definition) -> Vec<&'static str> {
    let parts = within(&definition.part);
    let any = |holds: fn(&Part) -> bool| parts.iter().any(|part| holds(part));
    let is_wrapper = |part: &Part| matches!(part, Part::Star(_) | Part::Plus(_) | Part::Optional(_));
    let is_over_group = |part: &Part| match part {
        Part::Star(inner) | Part::Plus(inner) => matches!(**inner, Part::All(_)),
        _ => false,
    };
    let has_choice = any(|part| matches!(part, Part::Choice(_)));
    let sorts = [
        ("an all of links", !has_choice && !any(is_wrapper)),
        ("a choice", has_choice),
        ("a star or plus over a group", any(is_over_group)),
        ("an open shape", definition.open),
        (
            "a shape that names what arrives",
            any(|part| matches!(part, Part::Link(link) if link.label.way == Way::Incoming)),
        ),
    ];
    let holding = sorts.into_iter().filter(|(_, holds)| *holds);
    holding.map(|(sort, _)| sort).collect()
}

/// For each list of kinds, for each shape: whether some card with these kinds lacks it, and whether some has it.
type Rows = BTreeMap<Vec<u16>, Vec<[bool; 2]>>;

/// The rows, if it is known for each pair, by its place, whether it is had.
fn rows(setting: &Setting, pairs: &[bool]) -> Rows {
    let mut rows = Rows::new();
    let shapes = usize::from(setting.template.shapes());
    for (card, had) in setting.cards().zip(pairs.chunks(shapes)) {
        let row = rows
            .entry(kinds_of(setting, card))
            .or_insert_with(|| vec![[false; 2]; shapes]);
        for (seen, had) in row.iter_mut().zip(had) {
            seen[usize::from(*had)] = true;
        }
    }
    rows
}

/// What tells cards of a sheet apart by their counts: how they differ, and a sort of the shape.
fn told_by_counts(setting: &Setting, fitting: &Rows) -> BTreeSet<(&'static str, &'static str)> {
    let mut told = BTreeSet::new();
    for (one, row) in fitting {
        for (other, other_row) in fitting {
            let ways = differing(one, other);
            let cells = row.iter().zip(other_row);
            for (definition, (cell, other)) in setting.template.definitions.iter().zip(cells) {
                if cell[0] && other[1] || cell[1] && other[0] {
                    let sorts = sorts(definition);
                    let of_way =
                        |way: &&'static str| sorts.iter().map(|sort| (*way, *sort)).collect::<Vec<_>>();
                    told.extend(ways.iter().flat_map(of_way));
                }
            }
        }
    }
    told
}

/// Whether alike cards fit a shape by their counts, and some have it in the largest typing and some don't.
fn told_by_far_cards(setting: &Setting, fitting: &Rows) -> bool {
    let (_, grid) = links::largest(setting);
    let kept: Vec<bool> = grid.iter().map(|byte| *byte == 1).collect();
    rows(setting, &kept).iter().any(|(kinds, row)| {
        let mut cells = row.iter().zip(&fitting[kinds]);
        cells.any(|(kept, fits)| *kept == [true, true] && *fits == [false, true])
    })
}

/// Adds to a tally what tells cards of a sheet apart.
fn tell(files: &Files, tally: &mut Tally) {
    let setting = Setting::read(&files.template, &files.script).expect("a generated sheet is well-formed");
    let fitting = rows(&setting, &counting::all(&setting));
    let mut told = told_by_counts(&setting, &fitting);
    if told_by_far_cards(&setting, &fitting) {
        told.insert(("alike", "the cards at the far ends"));
    }
    for key in told {
        *tally.entry(key).or_default() += 1;
    }
}

#[test]
fn the_random_sheets_tell_apart_what_is_nearly_alike() {
    let mut random = Random::new(81);
    let mut tally = Tally::new();
    for _ in 0..600 {
        let scale = alike::scale(&mut random);
        tell(&alike::alike(&mut random, scale), &mut tally);
    }
    assert_eq!(tally.len(), 6 * 5 + 1, "{tally:#?}");
    assert!(tally.values().all(|count| *count >= 20), "{tally:#?}");
}

#[test]
fn the_fixed_sheets_tell_apart_what_is_nearly_alike() {
    let mut tally = Tally::new();
    for (_, files) in fixed::sheets() {
        tell(&files, &mut tally);
    }
    for way in [
        "other numbers",
        "one more",
        "another first one",
        "the same mark, as many",
    ] {
        for sort in [
            "an all of links",
            "a choice",
            "a star or plus over a group",
            "a shape that names what arrives",
        ] {
            assert!(tally.contains_key(&(way, sort)), "{way}, {sort}: {tally:#?}");
        }
    }
    assert!(
        tally.contains_key(&("alike", "a shape that names what arrives")),
        "{tally:#?}"
    );
    assert!(
        tally.contains_key(&("the same mark", "an open shape")),
        "{tally:#?}"
    );
}

#[test]
fn most_cards_of_most_random_sheets_are_alike() {
    let (mut sheets, mut mostly_alike) = (0, 0);
    for case in alike_cases(5, 300) {
        assert!(sheet::typings(&case.bytes).is_ok(), "{}", case.name);
        let files = sheet::split(&case.bytes).expect("a sheet that is read");
        let setting = Setting::read(&files.template, &files.script).expect("a sheet that is read");
        let mut cards: BTreeMap<Vec<u16>, usize> = BTreeMap::new();
        for card in setting.cards() {
            *cards.entry(kinds_of(&setting, card)).or_default() += 1;
        }
        let several = cards
            .iter()
            .filter(|(kinds, cards)| !kinds.is_empty() && **cards > 1);
        let alike: usize = several.map(|(_, cards)| cards).sum();
        sheets += usize::from(alike > 0);
        mostly_alike += usize::from(2 * alike >= usize::from(setting.script.cards));
    }
    assert!(sheets > 270 && mostly_alike > 220, "{sheets}, {mostly_alike}");
}

#[test]
fn other_cards_than_alike_ones_can_have_the_same_mark() {
    let ones: BTreeSet<usize> = (0..64).map(|kind| kinds::mark(&[kind])).collect();
    assert_eq!(ones.len(), 64);
    let same: [&[&[u16]]; 3] = [
        &[&[7, 7], &[22, 60], &[47]],
        &[&[], &[14, 52]],
        &[&[0, 48, 50], &[8, 8, 50]],
    ];
    for lists in same {
        assert!(lists
            .iter()
            .all(|kinds| kinds::mark(kinds) == kinds::mark(lists[0])));
    }
}

#[test]
fn kinds_are_changed_as_is_said() {
    let mut random = Random::new(82);
    let mut found = [0; 4];
    for _ in 0..300 {
        let number = random.pick(&[3, 9, 64]);
        let one = kinds::any(&mut random, number);
        let more = kinds::one_more(&mut random, &one, number);
        assert!(differing(&one, &more).contains(&"one more"));
        let others = [
            ("other numbers", kinds::in_other_numbers(&mut random, &one)),
            ("another first one", kinds::other_first(&mut random, &one)),
            (
                "the same mark, as many",
                kinds::same_mark(&mut random, &one, number),
            ),
            ("the same mark", kinds::short_with_mark(&mut random, &one, number)),
        ];
        for (count, (way, other)) in found.iter_mut().zip(others) {
            let Some(other) = other else { continue };
            assert!(
                other.is_sorted() && other.iter().all(|kind| *kind < number),
                "{other:?}"
            );
            assert!(differing(&one, &other).contains(&way), "{one:?} {other:?}");
            *count += 1;
        }
    }
    assert!(found.iter().all(|count| *count > 60), "{found:?}");
}
