//! Two desks, one list: what one desk books changes nothing for the other, and the fixed inputs about desks.

use prep_tools::cases;
use prep_tools::desk::Desk;
use prep_tools::generate::desks;
use prep_tools::generate::pairs::{pairs, SheetPair};
use prep_tools::generate::special::document;
use prep_tools::sheet::{self, Files};
use prep_tools::typing::bookings::{self, Booking};
use prep_tools::typing::{both, smallest, Both, Pair, Setting, Smallest};
use std::collections::BTreeMap;
use std::{env, fs, process};

/// The bookings of a sheet, which must be accepted.
fn read(files: &Files) -> Vec<Booking> {
    let setting = Setting::read(&files.template, &files.script).expect("the sheet is well-formed");
    bookings::read(&setting, &files.bookings).expect("the bookings are well-formed")
}

/// The answer and the grid of a desk's smallest typing.
fn smallest_for(files: &Files, desk: Desk) -> (Smallest, Vec<u8>) {
    let size = usize::from(files.script[0]) * usize::from(files.template[1]);
    let mut grid = vec![9; size];
    let Files {
        template,
        script,
        bookings,
    } = files;
    let answer = smallest(template, script, bookings, desk.number(), &mut grid);
    (answer.expect("the sheet is well-formed"), grid)
}

/// Both typings for a desk.
fn both_for(files: &Files, desk: Desk) -> Both {
    both(&files.template, &files.script, &files.bookings, desk.number()).expect("the sheet is well-formed")
}

/// The lines that are printed for a desk.
fn printed_for(files: &Files, desk: Desk) -> String {
    let text = sheet::print(&files.bytes());
    let part = text.split("smallest").nth(1 + desk.index());
    part.expect("the sheet is printed").to_string()
}

#[test]
fn equal_bookings_of_one_desk_give_it_equal_answers_and_grids() {
    let (mut met, mut not_met, mut others_differ, mut turned) = (0, 0, 0, 0);
    for (number, SheetPair { desk, sheets }) in pairs(17, 1200).enumerate() {
        assert_eq!(desk.index(), number % 2);
        let [one, two] = &sheets;
        assert_eq!((&one.template, &one.script), (&two.template, &two.script));
        let lists = [read(one), read(two)];
        let own = lists.each_ref().map(|list| bookings::of(desk, list));
        let others = lists.each_ref().map(|list| bookings::of(desk.other(), list));
        assert_eq!(sorted(&own[0]), sorted(&own[1]));
        turned += usize::from(own[0] != own[1]);
        others_differ += usize::from(others[0] != others[1]);
        let answered = smallest_for(one, desk);
        assert_eq!(answered, smallest_for(two, desk), "{sheets:?}");
        assert_eq!(both_for(one, desk), both_for(two, desk), "{sheets:?}");
        assert_eq!(both_for(one, desk).smallest, answered, "{sheets:?}");
        assert_eq!(printed_for(one, desk), printed_for(two, desk), "{sheets:?}");
        match answered.0 {
            Smallest::Pairs(count) => met += usize::from(count > 0),
            Smallest::NotMet(..) => not_met += 1,
        }
    }
    let told = format!("{met} met, {not_met} not met, {others_differ} others differ, {turned} turned");
    assert!(met > 300 && not_met > 200, "{told}");
    assert!(others_differ > 700 && turned > 200, "{told}");
}

/// Pairs in the order of their numbers.
fn sorted(pairs: &[Pair]) -> Vec<Pair> {
    let mut pairs = pairs.to_vec();
    pairs.sort_unstable();
    pairs
}

#[test]
fn both_desks_are_told_apart_by_nothing_but_their_bookings() {
    // The same sheet with the desks exchanged has the desks' answers exchanged.
    for SheetPair { sheets, .. } in pairs(18, 300) {
        for files in sheets {
            let exchanged: Vec<Booking> = read(&files)
                .into_iter()
                .map(|(desk, pair)| (desk.other(), pair))
                .collect();
            let other = Files {
                bookings: bookings::words(&exchanged),
                ..files.clone()
            };
            for desk in Desk::BOTH {
                assert_eq!(
                    smallest_for(&files, desk),
                    smallest_for(&other, desk.other()),
                    "{files:?}"
                );
            }
        }
    }
}

#[test]
fn the_pairs_are_written_one_after_the_other() {
    let path = env::temp_dir().join(format!("prep-tools-{}-desk-pairs", process::id()));
    cases::desk_pairs(&path, 5, 40).expect("the file can be written");
    let bytes = fs::read(&path).expect("the file can be read");
    fs::remove_file(&path).expect("the file can be removed");
    let mut rest = &bytes[..];
    for SheetPair { sheets, .. } in pairs(5, 40) {
        for files in sheets {
            let Some(([5, 0, length @ ..], after)) = rest.split_first_chunk::<6>() else {
                panic!("the printer's tag and a length stand there");
            };
            let (input, after) = after.split_at(u32::from_le_bytes(*length) as usize);
            assert_eq!(sheet::split(input), Ok(files));
            rest = after;
        }
    }
    assert!(rest.is_empty());
}

#[test]
fn the_samples_are_printed_as_the_page_says() {
    let text = |words: &[u16]| sheet::print(&document(words).bytes());
    let largest = "largest 4 5 2\ncard 0:\ncard 1:\ncard 2: 1\n";
    let (one, none) = (
        "smallest 1\ncard 0:\ncard 1:\ncard 2: 1\n",
        "smallest 0\ncard 0:\ncard 1:\ncard 2:\n",
    );
    let no = "smallest no 0 1\n";
    for (words, parts) in [
        (&[1, 0, 2, 1][..], [one, none]),
        (&[1, 1, 2, 1], [none, one]),
        (&[1, 0, 0, 0], [no, none]),
        (&[1, 1, 0, 0], [none, no]),
        (&[2, 0, 0, 0, 1, 0, 0], [no, no]),
        (&[2, 0, 0, 0, 1, 2, 1], [no, one]),
        (&[2, 0, 2, 1, 1, 2, 1], [one, one]),
        (&[0], [none, none]),
    ] {
        assert_eq!(text(words), format!("{largest}{}", parts.concat()), "{words:?}");
    }
    for (words, answer) in [
        (&[2, 0, 2, 1, 0, 2, 1][..], "65 5"),
        (&[1, 2, 9, 9], "66 1"),
        (&[1, 0, 3, 1], "32 2"),
        (&[1, 2, 1], "30 0"),
    ] {
        assert_eq!(text(words), format!("refused {answer}\n"), "{words:?}");
    }
}

#[test]
fn the_fixed_inputs_about_desks_have_every_answer() {
    let mut tally: BTreeMap<String, usize> = BTreeMap::new();
    for case in desks::fixed() {
        let text = sheet::print(&case.bytes);
        let answers: Vec<&str> = match text.strip_prefix("refused ") {
            Some(refused) => vec![refused.split(' ').next().unwrap_or_default()],
            None => text
                .lines()
                .filter_map(|line| line.strip_prefix("smallest "))
                .map(|rest| if rest.starts_with("no") { "no" } else { "met" })
                .collect(),
        };
        *tally.entry(answers.join(" ")).or_default() += 1;
    }
    for answer in [
        "30", "31", "32", "33", "65", "66", "met met", "met no", "no met", "no no",
    ] {
        assert!(tally.contains_key(answer), "{answer}: {tally:?}");
    }
    assert!(
        tally["66"] >= 20 && tally["65"] >= 8 && tally["30"] >= 10,
        "{tally:?}"
    );
}
