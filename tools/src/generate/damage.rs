//! Faults, each aimed at one refusal. A fault may miss its aim (there may be no link to spoil, or an earlier fault
//! comes first); what the right answer is, the implementation says.

use super::layout::{layout, Layout, Spot};
use super::stored::without_desks;
use super::{bookings, repeats};
use crate::labels::{Label, Way};
use crate::numbers::Kind;
use crate::random::Random;
use crate::sheet::{Files, MOST_BYTES};
use crate::template::{
    code_of, label_of, ALL, CHOICE, MOST_COUNT, MOST_DEPTH, MOST_KINDS, MOST_WORDS, NO_LIMIT, OPEN,
};
use crate::typing::{self, Setting};

/// The refusals that a sheet can be aimed at.
pub const AIMS: [u16; 27] = [
    1, 2, 3, 4, 5, 6, 7, 8, 9, 10, 11, 12, 20, 21, 22, 23, 24, 25, 30, 31, 32, 33, 50, 60, 64, 65, 66,
];

/// Puts one fault into a whole sheet, aimed at this refusal (any of `AIMS` but 60).
pub fn aimed(random: &mut Random, files: &mut Files, number: u16) {
    match number {
        1..=12 | 64 => {
            let layout = layout(&files.template);
            of_template(random, &mut files.template, &layout, number);
        }
        20..=25 => {
            let kinds = files.template[0];
            of_script(random, &mut files.script, kinds, number);
        }
        50 => {
            if let Ok(setting) = Setting::read(&files.template, &files.script) {
                files.bookings = typing::bookings::words(&bookings::unmet(random, &setting));
            }
        }
        _ => {
            let (cards, shapes) = (files.script[0], files.template[1]);
            of_bookings(random, &mut files.bookings, cards, shapes, number);
        }
    }
}

/// Puts several faults into a whole sheet, most of them into the same file.
pub fn several(random: &mut Random, files: &mut Files, count: usize) {
    let layout = layout(&files.template);
    let (kinds, shapes) = (files.template[0], files.template[1]);
    let cards = files.script[0];
    let main_file = random.below(3);
    for _ in 0..count {
        let file = if random.chance(3, 4) {
            main_file
        } else {
            random.below(3)
        };
        let words = [&mut files.template, &mut files.script, &mut files.bookings]
            .into_iter()
            .nth(file);
        match (file, words) {
            (_, Some(words)) if random.chance(1, 4) => noise(random, words),
            (0, Some(words)) => {
                // The refusals 1 to 3 hide all the others, so they come less often.
                let number = if random.chance(1, 10) {
                    random.word(1, 3)
                } else {
                    random.pick(&[4, 5, 6, 7, 8, 9, 10, 11, 12, 64])
                };
                of_template(random, words, &layout, number);
            }
            (1, Some(words)) => {
                let number = random.word(20, 25);
                of_script(random, words, kinds, number);
            }
            (_, Some(words)) => {
                let number = random.pick(&[30, 31, 32, 33, 65, 66]);
                of_bookings(random, words, cards, shapes, number);
            }
            (_, None) => {}
        }
    }
}

/// One word changed, put in or taken away.
fn noise(random: &mut Random, words: &mut Vec<u16>) {
    if words.is_empty() {
        return;
    }
    let place = random.below(words.len());
    let word = random.pick(&[
        0, 1, 2, 3, 4, 16, 17, 18, 64, 255, 256, 257, 319, 320, 321, 383, 384, 8192, 8193, 65534, 65535,
    ]);
    match random.below(4) {
        0 => words.insert(place, word),
        1 => {
            words.remove(place);
        }
        2 => words[place] = words[place].wrapping_add(random.pick(&[1, NO_LIMIT])),
        _ => words[place] = word,
    }
}

/// Changes the word at a place, if there is one.
fn put(words: &mut [u16], place: usize, word: u16) {
    if let Some(old) = words.get_mut(place) {
        *old = word;
    }
}

/// Adds to the word at a place, if there is one.
fn add(words: &mut [u16], place: usize, more: u16) {
    if let Some(old) = words.get_mut(place) {
        *old = old.wrapping_add(more);
    }
}

/// The word at a place, or 0.
fn get(words: &[u16], place: usize) -> u16 {
    words.get(place).copied().unwrap_or(0)
}

/// Puts words in before a part and raises its shape's count to match.
fn put_in(words: &mut Vec<u16>, spot: Spot, more: &[u16]) {
    let place = spot.place.min(words.len());
    words.splice(place..place, more.iter().copied());
    add(words, spot.count_place, more.len() as u16);
}

/// A fault in a template with this layout.
fn of_template(random: &mut Random, words: &mut Vec<u16>, layout: &Layout, number: u16) {
    let part = random.pick(&layout.parts);
    match number {
        1 => {
            let length = random.pick(&[0, 1, MOST_WORDS + 1, MOST_WORDS + 2, 5000]);
            words.resize(length, 0);
        }
        2 => put(words, 0, random.pick(&[0, 65, 66, 256, 65535])),
        3 => put(words, 1, random.pick(&[0, 33, 34, 65535])),
        4 => too_short(random, words, layout),
        5 => {
            let code = random.pick(&[4, 5, 15, 19, 20, 100, 255, 384, 385, 5000, 65535]);
            put(words, part.place, code);
        }
        6 => {
            // One star fewer would make the part as deep as can be; that isn't always a fault.
            let deeper = (MOST_DEPTH - part.depth) + random.pick(&[0, 1, 1, 2]);
            let stars: Vec<u16> = (0..deeper).map(|_| random.word(1, 3)).collect();
            put_in(words, part, &stars);
        }
        7..=10 if layout.links.is_empty() => wrong_link(random, words, layout),
        7..=10 => of_link(random, words, layout, number),
        11 => wrong_group(random, words, layout, part),
        64 => wrong_opening(random, words, part),
        _ => left_over(random, words, layout),
    }
}

/// A fault in some link of a template.
fn of_link(random: &mut Random, words: &mut Vec<u16>, layout: &Layout, number: u16) {
    let link = random.pick(&layout.links);
    match number {
        7 => unknown_kind(random, words, link),
        8 => kind_twice(random, words, layout, link),
        9 => {
            let shapes = get(words, 1);
            let shape = random.pick(&[shapes, shapes.wrapping_add(1), 32, 65535]);
            put(words, link.place + 1, shape);
        }
        _ => wrong_bounds(random, words, link),
    }
}

/// A wrong link in front of the first part, in a group with it.
fn wrong_link(random: &mut Random, words: &mut Vec<u16>, layout: &Layout) {
    let link = [
        any_code(random, 0),
        random.word(0, 32),
        1,
        random.pick(&[0, 8193]),
    ];
    let group = [random.pick(&[CHOICE, ALL]), 2];
    put_in(words, layout.parts[0], &[&group[..], &link].concat());
}

fn too_short(random: &mut Random, words: &mut Vec<u16>, layout: &Layout) {
    let count = random.pick(&layout.counts);
    match random.below(6) {
        0 | 1 if words.len() > 2 => {
            let length = random.between(2, words.len() - 1);
            words.truncate(length);
        }
        2 => add(words, count, random.pick(&[1, 2, 100, 5000, 30000])),
        3 => put(words, count, 0),
        4 => add(words, 1, 1),
        _ => {
            let whole = get(words, count);
            put(words, count, random.word(0, whole));
        }
    }
}

/// The code of a link of some kind from this one on, either way.
fn any_code(random: &mut Random, first: u16) -> u16 {
    let any = random.word(first, MOST_KINDS - 1);
    code_of(Label {
        way: random.pick(&Way::BOTH),
        kind: Kind(random.pick(&[first, any])),
    })
}

fn unknown_kind(random: &mut Random, words: &mut [u16], link: Spot) {
    let kinds = get(words, 0);
    if kinds < MOST_KINDS && random.chance(3, 4) {
        put(words, link.place, any_code(random, kinds));
    } else if let Some(label) = label_of(get(words, link.place)) {
        // As many kinds as this link's number: so it is the first one that there isn't.
        put(words, 0, label.kind.0.max(1));
    }
}

fn kind_twice(random: &mut Random, words: &mut Vec<u16>, layout: &Layout, link: Spot) {
    let in_shape = |other: &&Spot| other.count_place == link.count_place && other.place != link.place;
    let others: Vec<&Spot> = layout.links.iter().filter(in_shape).collect();
    let mut code = get(words, link.place);
    if let Some(label) = label_of(code).filter(|_| random.chance(1, 6)) {
        // The same kind the other way is no fault by itself.
        code = code_of(label.turned());
    }
    if !others.is_empty() && random.chance(2, 3) {
        let other = random.pick(&others);
        put(words, other.place, code);
    } else {
        let twin = [
            random.pick(&[CHOICE, ALL]),
            2,
            code,
            random.word(0, 1),
            0,
            random.pick(&[0, 1, NO_LIMIT]),
        ];
        put_in(words, link, &twin);
    }
}

fn wrong_bounds(random: &mut Random, words: &mut [u16], link: Spot) {
    let (low_place, high_place) = (link.place + 2, link.place + 3);
    let low = get(words, low_place);
    match random.below(5) {
        0 => put(words, low_place, random.pick(&[MOST_COUNT + 1, 65534, 65535])),
        1 => put(words, high_place, random.pick(&[MOST_COUNT + 1, 65534, 10000])),
        2 if low > 0 => put(words, high_place, low - 1),
        3 => {
            put(words, low_place, MOST_COUNT + 1);
            put(words, high_place, random.pick(&[MOST_COUNT + 1, NO_LIMIT]));
        }
        _ => {
            put(words, low_place, 5);
            put(words, high_place, random.word(0, 4));
        }
    }
}

fn wrong_group(random: &mut Random, words: &mut Vec<u16>, layout: &Layout, part: Spot) {
    let wrong = random.pick(&[0, 1, 17, 18, 65535]);
    if layout.groups.is_empty() {
        put_in(words, part, &[random.pick(&[CHOICE, ALL]), wrong]);
    } else {
        let group = random.pick(&layout.groups);
        put(words, group.place + 1, wrong);
    }
}

/// The code of an open shape instead of a part's code, or once or twice before it. Once is no fault before the part of
/// a closed shape.
fn wrong_opening(random: &mut Random, words: &mut Vec<u16>, part: Spot) {
    match random.below(4) {
        0 => put(words, part.place, OPEN),
        1 => put_in(words, part, &[OPEN]),
        _ => put_in(words, part, &[OPEN, OPEN]),
    }
}

fn left_over(random: &mut Random, words: &mut Vec<u16>, layout: &Layout) {
    let more = random.pick(&[0, 1, 256, 65535]);
    if random.chance(1, 3) {
        words.extend(vec![more; random.between(1, 3)]);
    } else if random.chance(1, 4) {
        add(words, 1, NO_LIMIT);
    } else {
        let count = random.pick(&layout.counts);
        let end = (count + 1 + usize::from(get(words, count))).min(words.len());
        words.insert(end, more);
        add(words, count, 1);
    }
}

/// A fault in a script.
fn of_script(random: &mut Random, words: &mut Vec<u16>, kinds: u16, number: u16) {
    let cards = get(words, 0);
    let links = words.len().saturating_sub(2) / 3;
    let link = 2 + 3 * random.below(links.max(1));
    match number {
        20 => wrong_length(random, words, 2, 1),
        21 => put(words, 0, random.pick(&[1025, 1026, 2000, 65535])),
        22 => put(words, 1, random.pick(&[8193, 8194, 65535])),
        23 if links > 0 => {
            let place = link + random.pick(&[0, 2]);
            put(
                words,
                place,
                random.pick(&[cards, cards.wrapping_add(1), 1024, 65535]),
            );
        }
        24 if links > 0 => put(
            words,
            link + 1,
            random.pick(&[kinds, kinds.wrapping_add(1), 64, 65535]),
        ),
        25 if links > 1 => not_above(random, words, link),
        // There are no links to spoil: put two equal ones in.
        _ => {
            let twice = [0, random.word(0, kinds), 0].repeat(2);
            *words = [vec![cards.max(1), 2], twice].concat();
        }
    }
}

/// Makes a link equal to the one before it, or swaps them, or spoils only the last of its words.
fn not_above(random: &mut Random, words: &mut [u16], link: usize) {
    let link = if link < 5 { 5 } else { link };
    if link + 3 > words.len() {
        return;
    }
    match random.below(3) {
        0 => words.copy_within(link - 3..link, link),
        1 => {
            for place in link..link + 3 {
                words.swap(place, place - 3);
            }
        }
        _ => {
            words.copy_within(link - 3..link, link);
            let place = link + random.below(3);
            words[place] = words[place].saturating_sub(1);
        }
    }
}

/// A fault in a booking list.
fn of_bookings(random: &mut Random, words: &mut Vec<u16>, cards: u16, shapes: u16, number: u16) {
    if number == 65 {
        return repeats::put(random, words, cards, shapes);
    }
    if number >= 32 && words.len() < 4 {
        *words = vec![1, random.word(0, 1), 0, 0];
    }
    let booking = 1 + 3 * random.below((words.len().saturating_sub(1) / 3).max(1));
    match number {
        // A stored list is one that lacks the desks.
        30 if random.chance(1, 4) => *words = without_desks(words),
        30 => wrong_length(random, words, 1, 0),
        31 => put(words, 0, random.pick(&[1025, 1026, 65535])),
        32 => put(
            words,
            booking + 1,
            random.pick(&[cards, cards.wrapping_add(1), 1024, 65535]),
        ),
        33 => put(
            words,
            booking + 2,
            random.pick(&[shapes, shapes.wrapping_add(1), 32, 65535]),
        ),
        _ => put(words, booking, random.pick(&[2, 2, 3, 255, 256, 257, 65535])),
    }
}

/// A count of words that doesn't match the count at `count_place`; under `fewest` words, or some more or fewer.
fn wrong_length(random: &mut Random, words: &mut Vec<u16>, fewest: usize, count_place: usize) {
    match random.below(6) {
        0 => words.truncate(random.below(fewest)),
        1 => words.truncate(words.len().saturating_sub(random.between(1, 3))),
        2 => words.extend(vec![0; random.between(1, 4)]),
        3 => add(words, count_place, NO_LIMIT),
        _ => add(words, count_place, random.pick(&[1, 2, 50])),
    }
}

/// The input for these files with its bytes spoiled, aimed at 60 or at its edge.
pub fn of_bytes(random: &mut Random, files: &Files) -> Vec<u8> {
    let mut bytes = files.bytes();
    match random.below(10) {
        0 => bytes.truncate(random.below(bytes.len())),
        1 => bytes.truncate(bytes.len() - 1),
        2 => bytes.truncate(bytes.len() - 2),
        3 => bytes.push(0),
        4 => bytes.extend(vec![0; random.between(1, 300)]),
        5 => bytes.truncate(random.between(0, 3)),
        6 => {
            // A wrong count of words in front of the template.
            bytes[0] = bytes[0].wrapping_add(random.pick(&[1, 2, 255]));
        }
        7 => bytes.resize(
            random.pick(&[MOST_BYTES, MOST_BYTES + 1, MOST_BYTES + 2, 70000]),
            0,
        ),
        _ => {
            // Bookings that fill the input up to the edge of 65,536 bytes.
            let mut long = files.clone();
            let room = MOST_BYTES / 2 - 3 - files.template.len() - files.script.len();
            long.bookings.resize(room + random.below(2), 0);
            return long.bytes();
        }
    }
    bytes
}
