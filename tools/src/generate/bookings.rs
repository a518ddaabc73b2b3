//! Random bookings of both desks: from the pairs that the largest typing keeps, so that they are met, or from all
//! pairs. No desk books a pair twice.

use crate::desk::Desk;
use crate::numbers::{Card, Shape};
use crate::random::Random;
use crate::typing::bookings::{by, Booking, MOST_BOOKINGS};
use crate::typing::tidying::tidied;
use crate::typing::{links, Pair, Setting};

/// Bookings of up to `most` pairs: half of the lists are met if there is any pair that can be.
pub fn bookings(random: &mut Random, setting: &Setting, most: u16) -> Vec<Booking> {
    let pairs = pairs(random, setting, most);
    shared_out(random, &pairs)
}

/// Up to `most` pairs, none of them twice.
pub fn pairs(random: &mut Random, setting: &Setting, most: u16) -> Vec<Pair> {
    let picked = picked(random, setting, most);
    different(setting, &picked)
}

/// Each pair once, where it stands first.
fn different(setting: &Setting, pairs: &[Pair]) -> Vec<Pair> {
    let booked = tidied(setting, pairs).into_iter();
    booked.map(|(_, pair)| pair).collect()
}

/// The bookings of these pairs: by the radio, by the television, by either, or by either and some by both.
pub fn shared_out(random: &mut Random, pairs: &[Pair]) -> Vec<Booking> {
    let sort = random.below(8);
    if sort < 3 {
        return by(random.pick(&Desk::BOTH), pairs);
    }
    let desks = pairs.iter().map(|pair| (random.pick(&Desk::BOTH), *pair));
    let mut booked: Vec<Booking> = desks.collect();
    if sort < 6 {
        return booked;
    }
    for (desk, pair) in booked.clone() {
        if booked.len() < usize::from(MOST_BOOKINGS) && random.chance(1, 2) {
            booked.insert(random.below(booked.len() + 1), (desk.other(), pair));
        }
    }
    booked
}

/// Up to `most` pairs, of which some may be the same.
fn picked(random: &mut Random, setting: &Setting, most: u16) -> Vec<Pair> {
    let kept = pairs_with(setting, 1);
    match random.below(10) {
        0 => Vec::new(),
        1..=6 if !kept.is_empty() => {
            let count = booking_count(random, most);
            (0..count).map(|_| random.pick(&kept)).collect()
        }
        7 if !kept.is_empty() => {
            let count = booking_count(random, most);
            let mut booked: Vec<Pair> = (0..count).map(|_| random.pick(&kept)).collect();
            let odd_one = random.below(booked.len());
            booked[odd_one] = any_pair(random, setting);
            booked
        }
        _ if setting.script.cards == 0 => Vec::new(),
        _ => {
            let count = booking_count(random, most.min(8));
            (0..count).map(|_| any_pair(random, setting)).collect()
        }
    }
}

/// Bookings with at least one pair that can't be met, if there is such a pair.
pub fn unmet(random: &mut Random, setting: &Setting) -> Vec<Booking> {
    let kept = pairs_with(setting, 1);
    let struck = pairs_with(setting, 0);
    let mut booked = Vec::new();
    for _ in 0..random.between(1, 4) {
        if !kept.is_empty() && random.chance(1, 2) {
            booked.push(random.pick(&kept));
        }
        if !struck.is_empty() {
            booked.push(random.pick(&struck));
        }
    }
    shared_out(random, &different(setting, &booked))
}

/// The pairs at which the largest typing has this byte.
fn pairs_with(setting: &Setting, byte: u8) -> Vec<Pair> {
    let (_, grid) = links::largest(setting);
    setting
        .pairs()
        .filter(|pair| grid[setting.place(*pair)] == byte)
        .collect()
}

fn any_pair(random: &mut Random, setting: &Setting) -> Pair {
    let card = Card(random.word(0, setting.script.cards - 1));
    (card, Shape(random.word(0, setting.template.shapes() - 1)))
}

/// A count of bookings; the limit comes more often than others.
fn booking_count(random: &mut Random, most: u16) -> u16 {
    if random.chance(1, 6) {
        most
    } else {
        random.word(1, most)
    }
}
