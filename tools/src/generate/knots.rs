//! Faults that meet at one part, link or booking: only the order of the refusals tells which one is named.

use super::layout::layout;
use crate::random::Random;
use crate::sheet::Files;
use crate::template::{ALL, CHOICE, INCOMING, MOST_COUNT, MOST_DEPTH, MOST_KINDS, NO_LIMIT, OUTGOING};

/// Ties a knot in one of the three files of a whole sheet.
pub fn tie(random: &mut Random, files: &mut Files) {
    match random.below(6) {
        0 | 1 => in_link(random, &mut files.template),
        2 => in_depth(random, &mut files.template),
        3 => in_script_link(random, files),
        4 => in_counts(random, files),
        _ => in_booking(random, files),
    }
}

/// Spoils some of the words, each with an even chance.
fn spoil(random: &mut Random, words: &mut [u16], place: usize, wrong: &[u16]) {
    for (offset, word) in wrong.iter().enumerate() {
        if random.chance(1, 2) {
            if let Some(old) = words.get_mut(place + offset) {
                *old = *word;
            }
        }
    }
}

/// Several wrong words in one link of the template, whose shape may end too early as well.
fn in_link(random: &mut Random, words: &mut [u16]) {
    let layout = layout(words);
    if layout.links.is_empty() {
        return;
    }
    let link = random.pick(&layout.links);
    let in_same_shape: Vec<u16> = layout
        .links
        .iter()
        .filter(|other| other.count_place == link.count_place)
        .map(|other| words[other.place])
        .collect();
    let code = if random.chance(1, 2) {
        random.pick(&in_same_shape)
    } else {
        random.pick(&[OUTGOING, INCOMING]) + words[0]
    };
    let high = random.pick(&[0, MOST_COUNT + 1, NO_LIMIT - 1]);
    let shape = words[1];
    spoil(random, words, link.place, &[code, shape, MOST_COUNT + 1, high]);
    if random.chance(1, 5) {
        let within = link.place - link.count_place - 1;
        words[link.count_place] = (within + random.below(4)) as u16;
    }
}

/// A part that is too deep and has another fault too.
fn in_depth(random: &mut Random, words: &mut Vec<u16>) {
    let part = random.pick(&layout(words).parts);
    let deeper = MOST_DEPTH + 1 - part.depth - usize::from(random.chance(1, 4)).min(MOST_DEPTH - part.depth);
    let stars: Vec<u16> = (0..deeper).map(|_| random.word(1, 3)).collect();
    words.splice(part.place..part.place, stars);
    words[part.count_place] += deeper as u16;
    let place = part.place + deeper;
    match random.below(4) {
        0 => words[place] = random.pick(&[4, 15, 18, 255, 384, 65535]),
        1 => words[part.count_place] = (place - part.count_place - 1) as u16,
        2 => words[place] = random.pick(&[OUTGOING, INCOMING, INCOMING + MOST_KINDS - 1]),
        _ => words[place] = random.pick(&[CHOICE, ALL]),
    }
}

/// Several wrong words in one link of the script, which may also be out of order.
fn in_script_link(random: &mut Random, files: &mut Files) {
    let links = files.script.len().saturating_sub(2) / 3;
    if links == 0 {
        return;
    }
    let place = 2 + 3 * random.below(links);
    if place > 2 && random.chance(1, 2) {
        files.script.copy_within(place - 3..place, place);
    }
    let wrong = [files.script[0], files.template[0], files.script[0]];
    spoil(random, &mut files.script, place, &wrong);
}

/// Several wrong counts at the head of a file, with a wrong length or without.
fn in_counts(random: &mut Random, files: &mut Files) {
    match random.below(3) {
        0 => spoil(random, &mut files.template, 0, &[65, 33, 0]),
        1 => spoil(random, &mut files.script, 0, &[1025, 8193]),
        _ => spoil(random, &mut files.bookings, 0, &[1025]),
    }
    if random.chance(1, 2) {
        let file = random.pick(&[0, 1, 2]);
        let words = [&mut files.template, &mut files.script, &mut files.bookings]
            .into_iter()
            .nth(file);
        if let Some(words) = words {
            words.pop();
        }
    }
}

/// A booking whose desk, card and shape are wrong, or some of them. The second one may also repeat the first.
fn in_booking(random: &mut Random, files: &mut Files) {
    if files.bookings.len() < 4 {
        files.bookings = vec![2, 0, 0, 0, 1, 0, 0];
    }
    let wrong = [2, files.script[0], files.template[1]].repeat(2);
    if random.chance(1, 2) {
        let first = [files.bookings[1], files.bookings[2], files.bookings[3]];
        files.bookings.splice(4..4, first);
        files.bookings[0] += 1;
    }
    let place = 1 + 3 * random.below(files.bookings.len() / 3);
    spoil(random, &mut files.bookings, place, &wrong);
}
