//! Both typings: rounds against links, choices against the one choice that counts, and what both promise.

use prep_tools::desk::Desk;
use prep_tools::generate::arriving::{BOTH_ENDS, GUESTS};
use prep_tools::generate::heavy::{densest, densest_both_ways, densest_open, hub, ring, wrapped::wrapped};
use prep_tools::generate::open::{ONE_MORE, STRICT, TOLERANT};
use prep_tools::generate::special::{chain, longest};
use prep_tools::generate::turns::{chain_back, longest_back, zigzag};
use prep_tools::generate::{self, MIDDLE, SMALL, TINY};
use prep_tools::labels::{Label, Way};
use prep_tools::numbers::{Card, Kind, Shape};
use prep_tools::random::Random;
use prep_tools::script::{links_of_card, End};
use prep_tools::sheet::{self, Files};
use prep_tools::template::{Definition, Part};
use prep_tools::typing::judge::can_be_tried;
use prep_tools::typing::met::{chosen_for, holds, lies_below, met, met_by_choices, sound};
use prep_tools::typing::{self, bookings, closure, counting, links, rounds};
use prep_tools::typing::{Largest, Pair, Setting, Smallest};
use std::collections::BTreeSet;

/// Random sheets that are well-formed, with their settings.
fn sheets(seed: u64, count: usize) -> Vec<(Files, Setting)> {
    let mut random = Random::new(seed);
    let mut sheets = Vec::new();
    for number in 0..count {
        let scale = match number % 8 {
            0..=3 => TINY,
            4..=6 => SMALL,
            _ => MIDDLE,
        };
        let files = generate::any(&mut random, scale);
        let setting = setting(&files);
        sheets.push((files, setting));
    }
    sheets
}

/// What a desk books on a sheet.
fn booked(setting: &Setting, words: &[u16], desk: Desk) -> Vec<Pair> {
    let booked = bookings::read(setting, words).expect("the bookings are well-formed");
    bookings::of(desk, &booked)
}

fn setting(files: &Files) -> Setting {
    Setting::read(&files.template, &files.script).expect("a generated sheet is well-formed")
}

/// Whether a shape of the template names what arrives.
fn names_arriving(setting: &Setting) -> bool {
    let mut links = setting.template.parts().flat_map(Part::links);
    links.any(|link| link.label.way == Way::Incoming)
}

/// Whether the pair's shape is open and ignores a link that starts at its card.
fn ignores(setting: &Setting, (card, shape): Pair) -> bool {
    let starts = |end: &&End| end.label.way == Way::Outgoing;
    let all = setting.script.ends_of(card).iter().filter(starts).count();
    let looked_at = chosen_for(setting, (card, shape));
    looked_at.iter().filter(starts).count() < all
}

#[test]
fn each_link_has_an_end_at_both_its_cards() {
    for (files, setting) in sheets(20, 200) {
        for card in setting.cards() {
            let links = &setting.script.links;
            let mut ends = Vec::new();
            for link in links.iter().filter(|link| link.from == card) {
                let label = Label::outgoing(link.kind);
                ends.push(End { label, far: link.to });
            }
            for link in links.iter().filter(|link| link.to == card) {
                let label = Label::incoming(link.kind);
                ends.push(End {
                    label,
                    far: link.from,
                });
            }
            assert_eq!(setting.script.ends_of(card), ends, "{files:?}");
        }
    }
}

#[test]
fn rounds_and_links_find_the_same_largest_typing() {
    let (mut many_rounds, mut arriving, mut open) = (0, 0, 0);
    for (files, setting) in sheets(21, 800) {
        let by_rounds = rounds::largest(&setting);
        assert_eq!(by_rounds, links::largest(&setting), "{files:?}");
        let is_long = by_rounds.0.rounds > 3;
        many_rounds += usize::from(is_long);
        arriving += usize::from(is_long && names_arriving(&setting));
        open += usize::from(is_long && setting.template.definitions.iter().any(|shape| shape.open));
    }
    let told = format!(
        "{many_rounds} sheets take more than 3 rounds, {arriving} of them with arriving links, {open} with open shapes"
    );
    assert!(many_rounds > 80 && arriving > 50 && open > 30, "{told}");
}

#[test]
fn the_largest_is_sound_and_the_smallest_lies_between() {
    for (files, setting) in sheets(22, 500) {
        let (_, top) = links::largest(&setting);
        assert!(sound(&setting, &top), "{files:?}");
        for desk in Desk::BOTH {
            let booked = booked(&setting, &files.bookings, desk);
            smallest_lies_below(&setting, &booked, &top);
        }
    }
}

/// Checks what the smallest typing of these bookings promises against the largest typing.
fn smallest_lies_below(setting: &Setting, booked: &[Pair], top: &[u8]) {
    let (answer, grid) = closure::smallest(setting, booked);
    let reached = closure::closure(setting, booked);
    let unmet = |pair: &Pair| reached[setting.place(*pair)] == 1 && !met(setting, &reached, *pair);
    let lowest = setting.pairs().find(unmet);
    match answer {
        Smallest::Pairs(pairs) => {
            assert_eq!(lowest, None, "{setting:?}");
            assert_eq!(pairs, grid.iter().filter(|byte| **byte == 1).count());
            assert!(
                sound(setting, &grid) && holds(setting, &grid, booked),
                "{setting:?}"
            );
            assert!(lies_below(&grid, top), "{setting:?}");
        }
        Smallest::NotMet(card, shape) => {
            assert_eq!(lowest, Some((card, shape)), "{setting:?}");
            assert!(grid.iter().all(|byte| *byte == 0));
            assert!(!holds(setting, top, booked), "{setting:?}");
            assert_eq!(top[setting.place((card, shape))], 0, "{setting:?}");
        }
    }
}

#[test]
fn a_pair_is_met_if_and_only_if_some_choice_of_shapes_is_a_bag() {
    let mut random = Random::new(23);
    // How many aren't met and how many are: of all, of those with arriving links, of those that ignore a link.
    let (mut all, mut arriving, mut ignoring) = ([0, 0], [0, 0], [0, 0]);
    for (files, setting) in sheets(23, 400)
        .into_iter()
        .filter(|(_, setting)| setting.script.cards <= 5)
    {
        let some: Vec<u8> = (0..setting.size())
            .map(|_| u8::from(random.chance(2, 3)))
            .collect();
        for grid in [vec![1; setting.size()], some] {
            for pair in setting
                .pairs()
                .filter(|pair| can_be_tried(&setting, &grid, *pair))
            {
                let answer = met(&setting, &grid, pair);
                let by_choices = met_by_choices(&setting, &grid, pair);
                assert_eq!(answer, by_choices, "{pair:?} {grid:?} {files:?}");
                let ends = chosen_for(&setting, pair);
                let arrives = ends.iter().any(|end| end.label.way == Way::Incoming);
                all[usize::from(answer)] += 1;
                arriving[usize::from(answer)] += usize::from(arrives);
                ignoring[usize::from(answer)] += usize::from(ignores(&setting, pair));
            }
        }
    }
    let told = format!("{all:?}, {arriving:?} with arriving links, {ignoring:?} ignore a link");
    for (tally, least) in [(all, 500), (arriving, 50), (ignoring, 100)] {
        assert!(tally.iter().all(|count| *count > least), "{told}");
    }
    assert!(
        all.iter().sum::<usize>() > 2000 && arriving.iter().sum::<usize>() > 300,
        "{told}"
    );
}

/// The answer for the largest typing, by both methods, and its grid.
fn largest(setting: &Setting) -> (Largest, Vec<u8>) {
    let found = links::largest(setting);
    assert_eq!(rounds::largest(setting), found);
    found
}

fn answer(rounds: usize, struck: usize, bare: usize) -> Largest {
    Largest { rounds, struck, bare }
}

#[test]
fn a_guest_asks_for_the_item_that_points_at_it() {
    let setting = Setting::read(&GUESTS, &[2, 1, 0, 0, 1]).expect("well-formed");
    assert_eq!(largest(&setting), (answer(2, 2, 0), vec![1, 0, 0, 1]));
    let smallest = closure::smallest(&setting, &booked(&setting, &[1, 0, 1, 1], Desk::Radio));
    assert_eq!(smallest, (Smallest::Pairs(2), vec![1, 0, 0, 1]));
    let setting = Setting::read(&GUESTS, &[3, 1, 0, 0, 1]).expect("well-formed");
    let smallest = closure::smallest(&setting, &booked(&setting, &[1, 0, 2, 1], Desk::Radio));
    assert_eq!(smallest, (Smallest::NotMet(Card(2), Shape(1)), vec![0; 6]));
}

#[test]
fn a_link_to_itself_counts_at_both_ends_which_choose_apart() {
    let setting = Setting::read(&BOTH_ENDS, &[1, 1, 0, 0, 0]).expect("well-formed");
    assert_eq!(largest(&setting), (answer(1, 0, 0), vec![1]));
    // Shape 0 asks for shape 1 at the target and for shape 2 at the start.
    let template = [
        1, 3, 10, 17, 2, 256, 1, 1, 1, 320, 2, 1, 1, 4, 256, 1, 0, 65535, 4, 256, 2, 0, 65535,
    ];
    let setting = Setting::read(&template, &[1, 1, 0, 0, 0]).expect("well-formed");
    assert_eq!(largest(&setting), (answer(1, 0, 0), vec![1, 1, 1]));
    let pair = (Card(0), Shape(0));
    assert_eq!(chosen_for(&setting, pair).len(), 2);
    for (grid, is_met) in [([1, 1, 1], true), ([1, 0, 1], false), ([1, 1, 0], false)] {
        assert_eq!(met(&setting, &grid, pair), is_met, "{grid:?}");
        assert_eq!(met_by_choices(&setting, &grid, pair), is_met, "{grid:?}");
    }
}

#[test]
fn an_open_shape_ignores_the_links_that_it_does_not_name() {
    let setting = Setting::read(&TOLERANT, &ONE_MORE).expect("well-formed");
    assert_eq!(largest(&setting), (answer(2, 3, 0), vec![1, 0, 0, 1, 0, 1]));
    let booked = booked(&setting, &[1, 0, 0, 0], Desk::Radio);
    let smallest = closure::smallest(&setting, &booked);
    assert_eq!(smallest, (Smallest::Pairs(2), vec![1, 0, 0, 1, 0, 0]));
    // Card 2 need not have a shape, card 1 must.
    let pair = (Card(0), Shape(0));
    assert_eq!(chosen_for(&setting, pair).len(), 1);
    for (grid, is_met) in [([1, 0, 0, 1, 0, 0], true), ([1, 0, 0, 0, 0, 1], false)] {
        assert_eq!(met(&setting, &grid, pair), is_met, "{grid:?}");
        assert_eq!(met_by_choices(&setting, &grid, pair), is_met, "{grid:?}");
    }
    let setting = Setting::read(&STRICT, &ONE_MORE).expect("well-formed");
    assert_eq!(largest(&setting), (answer(2, 4, 1), vec![0, 0, 0, 1, 0, 1]));
    let smallest = closure::smallest(&setting, &booked);
    assert_eq!(smallest, (Smallest::NotMet(Card(0), Shape(0)), vec![0; 6]));
}

#[test]
fn an_open_sheet_is_printed_as_its_typings_are() {
    let print = |template: &[u16]| {
        let files = Files {
            template: template.to_vec(),
            script: ONE_MORE.to_vec(),
            bookings: vec![1, 0, 0, 0],
        };
        sheet::print(&files.bytes())
    };
    let largest = "largest 2 3 0\ncard 0: 0\ncard 1: 1\ncard 2: 1\n";
    let smallest = "smallest 2\ncard 0: 0\ncard 1: 1\ncard 2:\n";
    let none = "smallest 0\ncard 0:\ncard 1:\ncard 2:\n";
    assert_eq!(print(&TOLERANT), format!("{largest}{smallest}{none}"));
    let largest = "largest 2 4 1\ncard 0:\ncard 1: 1\ncard 2: 1\n";
    assert_eq!(print(&STRICT), format!("{largest}smallest no 0 0\n{none}"));
}

#[test]
fn an_ignored_link_is_a_link() {
    // Card 0 has a link of kind 1 alone, to card 1, which has one of kind 1 to itself: neither is blank, neither fits.
    let script = [3, 2, 0, 1, 1, 1, 1, 1];
    let setting = Setting::read(&TOLERANT, &script).expect("well-formed");
    assert_eq!(largest(&setting), (answer(2, 5, 2), vec![0, 0, 0, 0, 0, 1]));
    assert_eq!(links_of_card(&TOLERANT, &script, 0), [0, 1, 1]);
    // Its target has no shape, and a shape that takes every card keeps it.
    let any = [2, 1, 5, 18, 256, 0, 0, 0];
    let setting = Setting::read(&any, &[2, 2, 0, 1, 1, 1, 0, 1]).expect("well-formed");
    assert_eq!(largest(&setting), (answer(2, 1, 1), vec![1, 0]));
}

#[test]
fn a_chain_is_struck_against_its_links() {
    for (cards, closed, struck) in [(1, false, 1), (2, false, 2), (50, false, 50), (50, true, 0)] {
        let setting = setting(&chain_back(cards, closed));
        let (found, grid) = largest(&setting);
        assert_eq!(found, answer(struck + 1, struck, 0));
        // Every card keeps the second shape.
        assert!(grid.chunks(2).all(|row| row == [u8::from(closed), 1]));
    }
}

#[test]
fn a_zigzag_is_walked_and_struck_along_and_against_its_links() {
    for cards in [2, 9, 50] {
        let files = zigzag(cards, false);
        let setting = setting(&files);
        let booked = booked(&setting, &files.bookings, Desk::Radio);
        let (smallest, grid) = closure::smallest(&setting, &booked);
        assert_eq!(smallest, Smallest::Pairs(cards.into()));
        assert_eq!(largest(&setting).1, grid);
    }
    for cards in [2, 9, 50] {
        let files = zigzag(cards, true);
        let setting = setting(&files);
        let count = usize::from(cards);
        assert_eq!(largest(&setting).0, answer(count + 1, 2 * count, count));
        let booked = booked(&setting, &files.bookings, Desk::Radio);
        let last = (Card(cards - 1), Shape((cards - 1) % 2));
        assert_eq!(
            closure::smallest(&setting, &booked).0,
            Smallest::NotMet(last.0, last.1)
        );
    }
}

#[test]
fn a_chain_loses_one_card_a_round() {
    // The one card of the shortest chain is blank.
    for (cards, bare) in [(1, 0), (2, 2), (50, 50)] {
        let count = usize::from(cards);
        let expected = Largest {
            rounds: count + 1,
            struck: count,
            bare,
        };
        let setting = setting(&chain(cards, false));
        assert_eq!(rounds::largest(&setting).0, expected);
        assert_eq!(links::largest(&setting).0, expected);
    }
    let ring = setting(&chain(50, true));
    assert_eq!(
        links::largest(&ring).0,
        Largest {
            rounds: 1,
            struck: 0,
            bare: 0
        }
    );
}

#[test]
fn the_longest_sheet_strikes_one_pair_a_round() {
    for (cards, shapes) in [(2, 1), (7, 3), (9, 8)] {
        let setting = setting(&longest(cards, shapes));
        let pairs = setting.size();
        let expected = Largest {
            rounds: pairs + 1,
            struck: pairs,
            bare: usize::from(cards),
        };
        assert_eq!(rounds::largest(&setting).0, expected);
        assert_eq!(links::largest(&setting).0, expected);
    }
    let full = setting(&longest(1023, 32));
    assert_eq!(links::largest(&full).0.rounds, 1023 * 32 + 1);
}

#[test]
fn the_longest_sheet_strikes_against_the_links_too() {
    for (cards, shapes) in [(2, 1), (7, 3), (9, 8)] {
        let setting = setting(&longest_back(cards, shapes));
        let pairs = usize::from(cards * shapes);
        assert_eq!(largest(&setting).0, answer(pairs + 1, pairs, 0));
    }
    let full = setting(&longest_back(1024, 31));
    assert_eq!(links::largest(&full).0, answer(1024 * 31 + 1, 1024 * 31, 0));
}

#[test]
fn the_ring_takes_the_most_rounds() {
    let setting = setting(&ring());
    assert_eq!(
        links::largest(&setting).0,
        Largest {
            rounds: 32769,
            struck: 32768,
            bare: 1024
        }
    );
}

#[test]
fn the_densest_sheets_are_at_every_limit() {
    for (files, arriving) in [(densest(), 0), (densest_both_ways(), 15)] {
        assert_eq!((files.template.len(), files.bookings.len()), (4096, 3073));
        assert_eq!((files.template[0], files.template[1]), (64, 32));
        assert_eq!((files.script[0], files.script[1]), (1024, 8192));
        let setting = setting(&files);
        for part in setting.template.parts() {
            let links = part.links();
            assert_eq!(links.len(), 30);
            let incoming = links.iter().filter(|link| link.label.way == Way::Incoming);
            assert_eq!(incoming.count(), arriving);
        }
        let (found, _) = largest(&setting);
        assert!(found.rounds > 2 && found.struck > 16384, "{found:?}");
    }
}

#[test]
fn the_densest_sheet_loses_nothing_if_its_shapes_are_open() {
    let (closed, open) = (densest(), densest_open());
    assert_eq!((open.template.len(), &open.template[..2]), (4096, &[64, 32][..]));
    assert_eq!((&open.script, &open.bookings), (&closed.script, &closed.bookings));
    let setting = setting(&open);
    let is_dense = |shape: &Definition| shape.open && shape.part.links().len() == 30;
    assert!(setting.template.definitions.iter().all(is_dense));
    assert_eq!(links::largest(&setting).0, answer(1, 0, 0));
    assert!(setting.pairs().any(|pair| ignores(&setting, pair)));
}

#[test]
fn the_hub_has_links_from_all_cards_and_loses_nothing() {
    let (dense, files) = (densest(), hub());
    assert_eq!(
        (&files.template, &files.bookings),
        (&dense.template, &dense.bookings)
    );
    assert_eq!(files.script[..2], [1024, 8192]);
    let setting = setting(&files);
    for card in setting.cards() {
        let links = setting.script.links.iter().filter(|link| link.from == card);
        assert!(links
            .map(|link| (link.kind.0, link.to))
            .eq((0..8).map(|kind| (kind, Card(0)))));
    }
    assert_eq!(links::largest(&setting).0, answer(1, 0, 0));
}

/// How many stars, pluses and optionals there are around a link; none if there is anything else around it.
fn wrappers(part: &Part) -> Option<usize> {
    match part {
        Part::Star(inner) | Part::Plus(inner) | Part::Optional(inner) => Some(1 + wrappers(inner)?),
        Part::Link(_) => Some(0),
        _ => None,
    }
}

#[test]
fn the_wrapped_sheet_is_at_every_limit_but_that_of_words() {
    let files = wrapped();
    assert_eq!((files.template.len(), files.bookings.len()), (3682, 3073));
    assert_eq!(
        (&files.template[..2], &files.script[..2]),
        (&[64, 32][..], &[1024, 8192][..])
    );
    let setting = setting(&files);
    for part in setting.template.parts() {
        assert_eq!((part.depth(), part.links().len()), (12, 8));
        let Part::All(parts) = part else {
            panic!("{part:?} is no all")
        };
        assert!(parts.iter().all(|part| wrappers(part) == Some(10)));
    }
    let kinds = |card| {
        let links = setting.script.links.iter().filter(|link| link.from == card);
        links.map(|link| link.kind).collect::<Vec<_>>()
    };
    let lists: BTreeSet<Vec<Kind>> = setting.cards().map(kinds).collect();
    assert!(lists.len() > 700, "{} lists of kinds", lists.len());
    assert!(lists.iter().all(|kinds| kinds.len() == 8 && kinds[7] < Kind(8)));
    let fits = counting::all(&setting);
    let fitting = fits.iter().filter(|fits| **fits).count();
    assert!((100..fits.len() - 100).contains(&fitting), "{fitting} pairs fit");
}

#[test]
fn both_typings_are_those_of_the_calls_apart() {
    for (files, setting) in sheets(27, 200) {
        let Files {
            template,
            script,
            bookings,
        } = &files;
        let all = typing::typings(template, script, bookings).expect("a sheet is read");
        for desk in Desk::BOTH {
            let both = typing::both(template, script, bookings, desk.number()).expect("a sheet is read");
            let smallest = closure::smallest(&setting, &booked(&setting, bookings, desk));
            assert_eq!(both.largest, links::largest(&setting), "{files:?}");
            assert_eq!(both.smallest, smallest, "{files:?}");
            assert_eq!(
                (&all.largest, &all.smallest[desk.index()]),
                (&both.largest, &smallest)
            );
            let by_rounds = typing::both_by_rounds(template, script, bookings, desk.number());
            assert_eq!(by_rounds, Ok(both), "{files:?}");
        }
    }
}

#[test]
fn no_cards_take_one_round() {
    let setting = Setting::read(&[1, 1, 1, 0], &[0, 0]).expect("a script without cards is well-formed");
    let answer = Largest {
        rounds: 1,
        struck: 0,
        bare: 0,
    };
    assert_eq!(rounds::largest(&setting), (answer, vec![]));
    assert_eq!(links::largest(&setting), (answer, vec![]));
    assert_eq!(closure::smallest(&setting, &[]), (Smallest::Pairs(0), vec![]));
}

#[test]
fn the_closure_follows_links_of_kinds_that_take_none() {
    // Shape 0 names kind 0 with shape 1, but no copies: the pair (1, 1) is in the closure all the same.
    let template = [1, 2, 4, 256, 1, 0, 0, 4, 256, 1, 1, 1];
    let setting = Setting::read(&template, &[2, 1, 1, 0, 0]).expect("well-formed");
    let booked = booked(&setting, &[1, 0, 1, 0], Desk::Radio);
    assert_eq!(closure::closure(&setting, &booked), [0, 1, 1, 0]);
}

#[test]
fn the_closure_goes_against_links_of_kinds_that_may_not_arrive() {
    // Shape 0 names what arrives of kind 0 with shape 1, but none may: the pair (1, 1) is in the closure all the same.
    let template = [1, 2, 4, 320, 1, 0, 0, 4, 256, 1, 1, 1];
    let setting = Setting::read(&template, &[2, 1, 1, 0, 0]).expect("well-formed");
    let booked = booked(&setting, &[1, 0, 0, 0], Desk::Radio);
    assert_eq!(closure::closure(&setting, &booked), [1, 1, 0, 1]);
    assert_eq!(
        closure::smallest(&setting, &booked).0,
        Smallest::NotMet(Card(0), Shape(0))
    );
}
