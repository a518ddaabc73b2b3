//! *Tidy bookings*: the worked examples, what is refused, and what a tidied list promises, against plain loops.

use prep_tools::desk::Desk;
use prep_tools::generate::special::{document, DOCUMENT_SCRIPT, DOCUMENT_TEMPLATE};
use prep_tools::generate::stored::{with_desk, without_desks};
use prep_tools::generate::tidying::room;
use prep_tools::generate::{self, special, MIDDLE, SMALL, TINY};
use prep_tools::numbers::{Card, Shape};
use prep_tools::random::Random;
use prep_tools::refusal::Refusal;
use prep_tools::sheet::Files;
use prep_tools::typing::closure::smallest as smallest_of;
use prep_tools::typing::tidying::tidy;
use prep_tools::typing::{bookings, smallest, Pair, Setting, Smallest};

/// What is answered for a list of a sheet, and the buffer of this length, whose words are all 7 before.
fn tidied(files: &Files, length: usize) -> (Result<usize, Refusal>, Vec<u16>) {
    let mut buffer = vec![7; length];
    let answer = tidy(&files.template, &files.script, &files.bookings, &mut buffer);
    (answer, buffer)
}

/// The list that is written for the list of a sheet, which must not be refused.
fn tidy_list(files: &Files) -> Vec<u16> {
    let (answer, mut buffer) = tidied(files, room(&files.bookings));
    let words = answer.expect("the list is tidied");
    assert!(buffer[words..].iter().all(|word| *word == 7), "{files:?}");
    buffer.truncate(words);
    buffer
}

#[test]
fn the_worked_sheet() {
    let of = |words: &[u16], length: usize| tidied(&document(words), length);
    let apart = &[3, 2, 1, 0, 0, 2, 1];
    assert_eq!(of(apart, 10), (Ok(7), vec![2, 0, 2, 1, 0, 0, 0, 7, 7, 7]));
    for length in [0, 1, 7, 9, 11, 20] {
        assert_eq!(of(apart, length), (Err(Refusal::at(40, 0)), vec![7; length]));
    }
    assert_eq!(of(&[0], 1), (Ok(1), vec![0]));
    assert_eq!(of(&[1, 2, 2], 9), (Err(Refusal::at(33, 2)), vec![7; 9]));
    assert_eq!(of(&[2, 2, 1, 2, 1], 7), (Ok(4), vec![1, 0, 2, 1, 7, 7, 7]));
    assert_eq!(of(&[2, 0, 0, 0, 1], 7), (Ok(7), vec![2, 0, 0, 0, 0, 0, 1]));
    assert_eq!(of(&[2, 2, 1, 2, 2], 7), (Err(Refusal::at(33, 4)), vec![7; 7]));
    // A list with desks is no stored one.
    assert_eq!(of(&[1, 0, 2, 1], 4), (Err(Refusal::at(30, 0)), vec![7; 4]));
}

#[test]
fn a_repeat_is_never_refused_and_hides_no_fault() {
    let refused = |words: &[u16], length: usize| {
        let (answer, buffer) = tidied(&document(words), length);
        assert_eq!(buffer, vec![7; length]);
        answer.expect_err("something is wrong")
    };
    assert_eq!(refused(&[3, 2, 1, 2, 1, 9, 9], 7), Refusal::at(32, 5));
    assert_eq!(refused(&[3, 2, 1, 2, 1, 2, 9], 8), Refusal::at(33, 6));
    assert_eq!(refused(&[3, 3, 1, 2, 1, 2, 1], 7), Refusal::at(32, 1));
    assert_eq!(refused(&[2, 2, 1, 2, 1, 0], 6), Refusal::at(30, 0));
    assert_eq!(refused(&[1025, 2, 1, 2, 1], 5), Refusal::at(31, 0));
    assert_eq!(refused(&[], 0), Refusal::at(30, 0));
    assert_eq!(refused(&[2, 2, 1, 2, 1], 0), Refusal::at(40, 0));
    assert_eq!(refused(&[2, 2, 1, 2, 1], 5), Refusal::at(40, 0));
    assert_eq!(refused(&[2, 2, 1, 2, 1], 4), Refusal::at(40, 0));
    let mut buffer = [7; 7];
    let list = [2, 2, 1, 2, 1];
    let mut with = |template: &[u16], script: &[u16]| tidy(template, script, &list, &mut buffer);
    assert_eq!(with(&DOCUMENT_TEMPLATE, &[1025, 0]), Err(Refusal::at(21, 0)));
    assert_eq!(
        with(&DOCUMENT_TEMPLATE[..14], &[1025, 0]),
        Err(Refusal::at(4, 14))
    );
    assert_eq!(with(&DOCUMENT_TEMPLATE, &DOCUMENT_SCRIPT), Ok(4));
    assert_eq!(buffer, [1, 0, 2, 1, 7, 7, 7]);
}

#[test]
fn as_many_bookings_as_can_be() {
    let files = |pair: fn(u16) -> [u16; 2]| Files {
        template: [vec![1, 32], [1, 0].repeat(32)].concat(),
        script: vec![1024, 0],
        bookings: [1024].into_iter().chain((0..1024).flat_map(pair)).collect(),
    };
    let alike = files(|_| [1023, 31]);
    assert_eq!(tidy_list(&alike), [1, 0, 1023, 31]);
    let by_cards = files(|number| [number, 7]);
    assert_eq!(tidy_list(&by_cards), with_desk(0, &by_cards.bookings));
    let by_shapes = files(|number| [number % 32, number / 32]);
    let owed = with_desk(0, &by_shapes.bookings);
    assert_eq!(tidy_list(&by_shapes), owed);
    let mut last = by_shapes.clone();
    last.bookings[2047..].copy_from_slice(&[0, 0]);
    let owed = [&[1023], &owed[1..3070]].concat();
    assert_eq!(tidy_list(&last), owed);
}

/// The bookings of a list that come before a fault, by the rule that lets pairs stand several times, and that fault.
fn plainly_read(files: &Files) -> (Vec<Pair>, Option<Refusal>) {
    let (cards, shapes, words) = (files.script[0], files.template[1], &files.bookings);
    let mut booked = Vec::new();
    for number in 0..words[0] {
        let place = 1 + 2 * usize::from(number);
        let (card, shape) = (words[place], words[place + 1]);
        if card >= cards {
            return (booked, Some(Refusal::at(32, place)));
        }
        if shape >= shapes {
            return (booked, Some(Refusal::at(33, place + 1)));
        }
        booked.push((Card(card), Shape(shape)));
    }
    (booked, None)
}

/// The first booking whose pair is the one of an earlier booking.
fn first_repeat(booked: &[Pair]) -> Option<usize> {
    (0..booked.len()).find(|later| booked[..*later].contains(&booked[*later]))
}

/// The first of each pair, found by looking at all earlier ones.
fn first_occurrences(booked: &[Pair]) -> Vec<Pair> {
    let numbers = (0..booked.len()).filter(|number| !booked[..*number].contains(&booked[*number]));
    numbers.map(|number| booked[number]).collect()
}

/// A sheet with a list of pairs of few cards, so that many are repeats; some have a wrong card or a wrong shape.
fn stored_sheet(random: &mut Random) -> Files {
    let scale = random.pick(&[TINY, TINY, SMALL, MIDDLE]);
    let mut files = generate::any(random, scale);
    let (cards, shapes) = (files.script[0], files.template[1]);
    let few = random.word(1, 6).min(cards);
    let count = random.pick(&[0, 1, 2, 5, 20, 100]);
    let mut words = vec![count];
    for _ in 0..count {
        let is_wrong = random.chance(1, 200);
        let card = random.word(0, few.saturating_sub(1)) + if is_wrong { cards } else { 0 };
        let shape = random.word(0, shapes - 1) + if random.chance(1, 200) { shapes } else { 0 };
        words.extend([card, shape]);
    }
    files.bookings = words;
    files
}

#[test]
fn stored_lists_are_read_as_a_plain_loop_reads_them() {
    let mut random = Random::new(81);
    let (mut accepted, mut repeats, mut faults) = (0, 0, 0);
    for _ in 0..4000 {
        let files = stored_sheet(&mut random);
        let setting =
            Setting::read(&files.template, &files.script).expect("a generated sheet is well-formed");
        let (booked, fault) = plainly_read(&files);
        let stored = bookings::read_stored(&setting, &files.bookings);
        assert_eq!(stored, fault.map_or(Ok(booked.clone()), Err), "{files:?}");
        // The same list with a desk is refused for its first repeat, or for the same fault.
        let desk = random.pick(&Desk::BOTH);
        let strict = bookings::read(&setting, &with_desk(desk.number(), &files.bookings));
        match (first_repeat(&booked), fault) {
            (Some(number), _) => {
                repeats += 1;
                assert_eq!(strict, Err(Refusal::at(65, 2 + 3 * number)), "{files:?}");
            }
            (None, Some(fault)) => {
                faults += 1;
                let place = fault.place + fault.place.div_ceil(2);
                assert_eq!(strict, Err(Refusal::at(fault.number, place)), "{files:?}");
            }
            (None, None) => {
                accepted += 1;
                assert_eq!(strict, Ok(bookings::by(desk, &booked)), "{files:?}");
            }
        }
    }
    let told = format!("{accepted} accepted, {repeats} repeats, {faults} faults");
    assert!(accepted > 1000 && repeats > 1000 && faults > 100, "{told}");
}

#[test]
fn a_tidied_list_has_the_first_of_each_pair() {
    let mut random = Random::new(82);
    let (mut shorter, mut same) = (0, 0);
    for _ in 0..2000 {
        let files = stored_sheet(&mut random);
        let (booked, fault) = plainly_read(&files);
        if let Some(fault) = fault {
            let length = files.bookings.len() + random.below(2);
            assert_eq!(tidied(&files, length), (Err(fault), vec![7; length]), "{files:?}");
            continue;
        }
        let written = tidy_list(&files);
        let firsts = first_occurrences(&booked);
        assert_eq!(
            written,
            with_desk(0, &bookings::stored_words(&firsts)),
            "{files:?}"
        );
        match firsts.len() < booked.len() {
            true => shorter += 1,
            false => same += 1,
        }
    }
    assert!(shorter > 500 && same > 500, "{shorter} shorter, {same} the same");
}

#[test]
fn a_tidied_list_means_what_the_stored_one_means() {
    let mut random = Random::new(83);
    let (mut met, mut not_met) = (0, 0);
    for number in 0..2000 {
        let files = any_stored_sheet(&mut random, number);
        let setting =
            Setting::read(&files.template, &files.script).expect("a generated sheet is well-formed");
        let Ok(booked) = bookings::read_stored(&setting, &files.bookings) else {
            continue;
        };
        let written = tidy_list(&files);
        let read = bookings::read(&setting, &written).expect("a tidied list is well-formed");
        assert!(bookings::of(Desk::Television, &read).is_empty(), "{files:?}");
        let read = bookings::of(Desk::Radio, &read);
        assert!(booked.iter().all(|pair| read.contains(pair)), "{files:?}");
        assert!(read.iter().all(|pair| booked.contains(pair)), "{files:?}");
        let of_desk = |desk: u16| {
            let mut grid = vec![9; setting.size()];
            let answer = smallest(&files.template, &files.script, &written, desk, &mut grid);
            (answer, grid)
        };
        let (owed, owed_grid) = smallest_of(&setting, &booked);
        assert_eq!(of_desk(0), (Ok(owed), owed_grid), "{files:?}");
        assert_eq!(
            of_desk(1),
            (Ok(Smallest::Pairs(0)), vec![0; setting.size()]),
            "{files:?}"
        );
        if read.len() < booked.len() {
            match owed {
                Smallest::Pairs(_) => met += 1,
                Smallest::NotMet(..) => not_met += 1,
            }
        }
    }
    assert!(met > 300 && not_met > 300, "{met} met, {not_met} not");
}

/// A sheet with a stored list: at the limits, with bookings that are met or not, or of a few cards.
fn any_stored_sheet(random: &mut Random, number: usize) -> Files {
    let files = match number % 50 {
        0 => special::limits(random),
        1..=25 => generate::any(random, SMALL),
        _ => return stored_sheet(random),
    };
    repeated(random, files)
}

/// A sheet with some of its bookings again and again, in any order.
fn repeated(random: &mut Random, mut files: Files) -> Files {
    let stored = without_desks(&files.bookings);
    let all: Vec<[u16; 2]> = bookings::cut(&stored);
    let some = &all[..all.len().min(random.between(1, 9))];
    let count = 1024.min(some.len() * random.between(2, 200));
    let mut list: Vec<[u16; 2]> = some.iter().copied().cycle().take(count).collect();
    random.shuffle(&mut list);
    files.bookings = [&[count as u16], list.as_flattened()].concat();
    files
}
