//! The bookings of two desks, and the words of a booking list.

use crate::part::word;
use crate::{Card, Shape};

/// A desk: whose a booking is, and for whom a call asks. What one desk books changes no typing of the other.
#[derive(Clone, Copy, Debug, PartialEq, Eq, PartialOrd, Ord, Hash)]
pub enum Desk {
    /// The radio desk, 0.
    Radio,
    /// The television desk, 1.
    Television,
}

impl Desk {
    /// Both desks, in the order of their numbers.
    pub const BOTH: [Desk; 2] = [Desk::Radio, Desk::Television];

    /// The desk's number, as the functions of `raw` take it.
    pub fn number(self) -> u16 {
        self as u16
    }
}

/// A booking: whose it is, the card and the shape. A desk books a pair of card and shape once; the other one may book
/// it too.
pub type Booking = (Desk, Card, Shape);

/// A booking list: its count, then each booking. A count that no word holds is refused as any over 1,024 is.
pub(crate) fn booking_words(bookings: &[Booking]) -> Vec<u16> {
    let numbers = bookings.iter().flat_map(|&(desk, card, shape)| [desk.number(), card.0, shape.0]);
    std::iter::once(word(bookings.len())).chain(numbers).collect()
}

/// The same for a stored list, which has no desks.
pub(crate) fn stored_words(pairs: &[(Card, Shape)]) -> Vec<u16> {
    let numbers = pairs.iter().flat_map(|&(card, shape)| [card.0, shape.0]);
    std::iter::once(word(pairs.len())).chain(numbers).collect()
}

/// The bookings of a list that was written by the library, so that each desk is one of the two.
pub(crate) fn bookings_of(words: &[u16]) -> Vec<Booking> {
    let booking = |w: &[u16]| (Desk::BOTH[usize::from(w[0])], Card(w[1]), Shape(w[2]));
    words[1..].chunks_exact(3).map(booking).collect()
}
