//! Two sheets with the same template and script, on which one desk books the same pairs. What the other desk books
//! differs, and so does the order in which the bookings stand.

use super::bookings::{pairs as any_pairs, unmet};
use super::{any, MIDDLE, SMALL, TINY};
use crate::desk::Desk;
use crate::random::Random;
use crate::sheet::Files;
use crate::typing::bookings::{self, by, words, Booking, MOST_BOOKINGS};
use crate::typing::{Pair, Setting};

/// Two such sheets.
#[derive(Clone, PartialEq, Eq, Debug)]
pub struct SheetPair {
    /// The desk that books the same on both.
    pub desk: Desk,
    /// The sheets; both are accepted.
    pub sheets: [Files; 2],
}

/// So many pairs of one seed; the first for desk 0, the second for desk 1, and so in turn.
pub fn pairs(seed: u64, count: usize) -> impl Iterator<Item = SheetPair> {
    let mut random = Random::new(seed);
    let desks = Desk::BOTH.into_iter().cycle().take(count);
    desks.map(move |desk| pair(&mut random, desk))
}

/// Two sheets on which this desk books the same.
fn pair(random: &mut Random, desk: Desk) -> SheetPair {
    let scale = random.pick(&[TINY, TINY, SMALL, SMALL, MIDDLE]);
    let files = any(random, scale);
    let setting = match Setting::read(&files.template, &files.script) {
        Ok(setting) => setting,
        Err(refusal) => panic!("a generated sheet has a fault, {refusal}"),
    };
    let mut own = own_pairs(random, &setting, desk, scale.bookings);
    let mut sheet = |own: &[Pair]| {
        let others = any_pairs(random, &setting, scale.bookings);
        let list = mixed(random, &by(desk, own), &by(desk.other(), &others));
        Files {
            bookings: words(&list),
            ..files.clone()
        }
    };
    let first = sheet(&own);
    let turned = first.bookings.len() % 2 == 1;
    if turned {
        own.reverse();
    }
    let sheets = [first, sheet(&own)];
    SheetPair { desk, sheets }
}

/// What a desk books on both sheets: pairs that are met most of the time, or some that aren't.
fn own_pairs(random: &mut Random, setting: &Setting, desk: Desk, most: u16) -> Vec<Pair> {
    if random.chance(1, 4) {
        return bookings::of(desk, &unmet(random, setting));
    }
    any_pairs(random, setting, most)
}

/// Two lists mixed anyhow, each in its own order, as far as there is room for the second.
fn mixed(random: &mut Random, first: &[Booking], second: &[Booking]) -> Vec<Booking> {
    let mut list = first.to_vec();
    let mut place = 0;
    for booking in second {
        if list.len() < usize::from(MOST_BOOKINGS) {
            place = random.between(place, list.len());
            list.insert(place, *booking);
            place += 1;
        }
    }
    list
}
