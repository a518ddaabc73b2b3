//! Reads a booking list: a count A, then A times a desk, a card and a shape, in any order, no pair twice by one desk.
//! Refusals 30 to 33, 65 and 66. A stored list, which only tidying reads, has no desks, and a pair may stand in it
//! several times.

use super::{Pair, Setting};
use crate::desk::Desk;
use crate::numbers::{Card, Shape};
use crate::refusal::Refusal;
use std::mem;

/// The most bookings, those of both desks together.
pub const MOST_BOOKINGS: u16 = 1024;

/// A booking: whose it is, and the pair that is booked.
pub type Booking = (Desk, Pair);

/// Reads the bookings of both desks for a template and script that are well-formed.
pub fn read(setting: &Setting, words: &[u16]) -> Result<Vec<Booking>, Refusal> {
    let mut is_first = firsts(setting);
    let mut booked = Vec::new();
    for booking in each(setting, words)? {
        let booking = booking?;
        if !is_first(&booking) {
            return Err(Refusal::at(65, 2 + 3 * booked.len()));
        }
        booked.push(booking);
    }
    Ok(booked)
}

/// The same for a list in which a desk may book a pair several times.
pub fn read_with_repeats(setting: &Setting, words: &[u16]) -> Result<Vec<Booking>, Refusal> {
    each(setting, words)?.collect()
}

/// Each booking of a list that has the words that its count says, or what is wrong with it.
fn each<'a>(
    setting: &'a Setting,
    words: &'a [u16],
) -> Result<impl Iterator<Item = Result<Booking, Refusal>> + 'a, Refusal> {
    let booking = |place: usize| {
        let desk = Desk::numbered(words[place]).ok_or(Refusal::at(66, place))?;
        Ok((desk, pair(setting, words, place + 1)?))
    };
    Ok(places(words, 3)?.map(booking))
}

/// Reads a stored list, which has no desks and in which a pair may stand several times.
pub fn read_stored(setting: &Setting, words: &[u16]) -> Result<Vec<Pair>, Refusal> {
    places(words, 2)?
        .map(|place| pair(setting, words, place))
        .collect()
}

/// Where each booking starts in a list that has so many words for each as its count says.
fn places(words: &[u16], size: usize) -> Result<impl Iterator<Item = usize>, Refusal> {
    let Some(count) = words.first() else {
        return Err(Refusal::at(30, 0));
    };
    if *count > MOST_BOOKINGS {
        return Err(Refusal::at(31, 0));
    }
    if words.len() != 1 + size * usize::from(*count) {
        return Err(Refusal::at(30, 0));
    }
    Ok((1..words.len()).step_by(size))
}

/// The pair whose card stands at this place.
fn pair(setting: &Setting, words: &[u16], place: usize) -> Result<Pair, Refusal> {
    let (card, shape) = (words[place], words[place + 1]);
    if card >= setting.script.cards {
        return Err(Refusal::at(32, place));
    }
    if shape >= setting.template.shapes() {
        return Err(Refusal::at(33, place + 1));
    }
    Ok((Card(card), Shape(shape)))
}

/// Tells of one booking after the other whether its desk books the pair for the first time.
pub fn firsts(setting: &Setting) -> impl FnMut(&Booking) -> bool + '_ {
    let mut seen = Desk::BOTH.map(|_| vec![false; setting.size()]);
    move |(desk, pair)| !mem::replace(&mut seen[desk.index()][setting.place(*pair)], true)
}

/// The pairs that a desk books, in the list's order.
pub fn of(desk: Desk, booked: &[Booking]) -> Vec<Pair> {
    let of_desk = booked.iter().filter(|(whose, _)| *whose == desk);
    of_desk.map(|(_, pair)| *pair).collect()
}

/// The bookings of these pairs by one desk.
pub fn by(desk: Desk, pairs: &[Pair]) -> Vec<Booking> {
    pairs.iter().map(|pair| (desk, *pair)).collect()
}

/// The words of a booking list.
pub fn words(booked: &[Booking]) -> Vec<u16> {
    let mut words = vec![booked.len() as u16];
    let each = booked.iter();
    words.extend(each.flat_map(|(desk, (card, shape))| [desk.number(), card.0, shape.0]));
    words
}

/// The words of each booking of a list that has so many for each, whatever its count says.
pub fn cut<const SIZE: usize>(list: &[u16]) -> Vec<[u16; SIZE]> {
    let each = list.get(1..).unwrap_or_default().chunks_exact(SIZE);
    each.map(|words| words.try_into().expect("a piece of this size"))
        .collect()
}

/// The words of a stored list.
pub fn stored_words(pairs: &[Pair]) -> Vec<u16> {
    let mut words = vec![pairs.len() as u16];
    words.extend(pairs.iter().flat_map(|(card, shape)| [card.0, shape.0]));
    words
}
