//! Booking lists in which a desk books a pair twice, or nearly so. `fixed` has those that are the same in every run.

pub mod fixed;

use crate::random::Random;
use crate::typing::bookings::{self, MOST_BOOKINGS};

/// The words of a booking, which may be wrong: a desk, a card and a shape.
type Booking = [u16; 3];

/// Puts a repeat into a booking list of so many cards and shapes, or what is nearly one, alone or with another fault.
pub fn put(random: &mut Random, words: &mut Vec<u16>, cards: u16, shapes: u16) {
    let mut list = listed(words);
    let (first, end) = (random.below(list.len()), list.len());
    let booking = list[first];
    let sort = random.below(10);
    match sort {
        0 | 1 => list.insert(first + 1, booking),
        2 => list.insert(random.between(first + 1, end), booking),
        3 | 4 => {
            list.push(booking);
            let [desk, card, shape] = booking;
            let wrong = [[2, card, shape], [desk, cards, shape], [desk, card, shapes]];
            let wrong = random.pick(&[wrong[0], wrong[1], wrong[2], [desk, cards, shapes]]);
            list.insert(random.between(0, end + 1), wrong);
        }
        5 => list = vec![booking; random.between(2, end + 1)],
        6 => list = every_pair_and_one(random, cards, shapes),
        7 => list.push(random.pick(&nearly(booking, cards, shapes))),
        _ => list.push(booking),
    }
    *words = written(&list);
    if sort == 8 {
        wrong_size(random, words);
    }
}

/// The bookings of a list, at least one and not so many that none can be put in.
fn listed(words: &[u16]) -> Vec<Booking> {
    let mut listed = bookings::cut(words);
    listed.truncate(usize::from(MOST_BOOKINGS) - 2);
    if listed.is_empty() {
        listed.push([0, 0, 0]);
    }
    listed
}

/// The words of a list.
fn written(list: &[Booking]) -> Vec<u16> {
    [&[list.len() as u16], list.as_flattened()].concat()
}

/// The same pair by the other desk, the same card with another shape, and another card with the same shape.
fn nearly([desk, card, shape]: Booking, cards: u16, shapes: u16) -> [Booking; 3] {
    let next = |word: u16, count: u16| word.wrapping_add(1) % count.max(1);
    [
        [next(desk, 2), card, shape],
        [desk, card, next(shape, shapes)],
        [desk, next(card, cards), shape],
    ]
}

/// Every pair once, by either desk, as far as there is room, and then one of them again by the same desk.
fn every_pair_and_one(random: &mut Random, cards: u16, shapes: u16) -> Vec<Booking> {
    let all = (0..cards).flat_map(|card| (0..shapes).map(move |shape| (card, shape)));
    let booking = |(card, shape)| [random.word(0, 1), card, shape];
    let mut list: Vec<Booking> = all.take(usize::from(MOST_BOOKINGS) - 1).map(booking).collect();
    if !list.is_empty() {
        list.push(random.pick(&list));
    }
    list
}

/// A word more or less, or another count.
fn wrong_size(random: &mut Random, words: &mut Vec<u16>) {
    match random.below(4) {
        0 => words.push(0),
        1 => words.truncate(words.len() - 1),
        2 => words[0] += 1,
        _ => words[0] -= 1,
    }
}
