//! The library's call for both typings, on grids that are kept from call to call.

use prep::raw::{self, BothAnswer};
use prep::Desk;
use prep_tools::sheet::Files;
use prep_tools::typing::{Both, Smallest};

/// The answer that the library owes for what the other implementation found.
pub fn owed(both: &Both) -> BothAnswer {
    let largest = both.largest.0;
    let (number, card, shape, pairs) = match both.smallest.0 {
        Smallest::Pairs(pairs) => (0, 0, 0, pairs),
        Smallest::NotMet(card, shape) => (prep::refusals::NOT_MET, card.0, shape.0, 0),
    };
    BothAnswer {
        number,
        card,
        shape,
        place: 0,
        rounds: largest.rounds,
        struck: largest.struck,
        bare: largest.bare,
        pairs,
    }
}

/// The grids that the library writes. They are full of other bytes at first and are never cleared.
pub struct Buffers {
    /// The smallest typing.
    pub small: Vec<u8>,
    /// The largest typing.
    pub large: Vec<u8>,
}

impl Buffers {
    /// Two grids of this size.
    pub fn new(size: usize) -> Buffers {
        Buffers {
            small: vec![0xa5; size],
            large: vec![0xa5; size],
        }
    }
}

/// The desk that books, and for which both typings are asked.
pub const DESK: Desk = Desk::Radio;

/// Both typings by the library.
pub fn both(files: &Files, buffers: &mut Buffers) -> BothAnswer {
    raw::both_typings(
        &files.template,
        &files.script,
        &files.bookings,
        DESK.number(),
        &mut buffers.small,
        &mut buffers.large,
    )
}
