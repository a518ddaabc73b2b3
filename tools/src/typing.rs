//! *Largest* and *Smallest*, both together, *Judging* and *Tidying*.
//!
//! | here          | what                                                              |
//! |---------------|-------------------------------------------------------------------|
//! | `Setting`     | a template and a script that belong together                      |
//! | `met`         | when a pair is met; sound typings, and typings in between         |
//! | `rounds`      | the largest typing, round by round as the definition says         |
//! | `links`       | the largest typing, breadth-first from strike to strike           |
//! | `counting`    | whether a card's counts fit a shape, card after card; all pairs   |
//! | `bookings`    | reads a booking list, refusals 30 to 33, 65 and 66                |
//! | `closure`     | the smallest typing                                               |
//! | `judge`       | judges a grid, refusals 61 to 63                                  |
//! | `tidying`     | keeps the first booking of each pair of a stored list, for desk 0 |

pub mod bookings;
pub mod closure;
pub mod counting;
pub mod judge;
pub mod links;
pub mod met;
pub mod rounds;
pub mod tidying;

use crate::desk::Desk;
use crate::numbers::{Card, Shape};
use crate::refusal::Refusal;
use crate::script::{self, Script};
use crate::template::{self, Template};
use bookings::Booking;

/// A typing: N × S bytes, 1 where card n has shape t, at place n × S + t, else 0.
pub type Grid = Vec<u8>;

/// A pair of a card and a shape.
pub type Pair = (Card, Shape);

/// A template and a script read with it.
#[derive(Clone, Debug)]
pub struct Setting {
    /// The template.
    pub template: Template,
    /// The script.
    pub script: Script,
}

/// The answer for the largest typing.
#[derive(Clone, Copy, PartialEq, Eq, Debug)]
pub struct Largest {
    /// Rounds, with the last one that strikes nothing.
    pub rounds: usize,
    /// Pairs struck.
    pub struck: usize,
    /// Cards with some link and no shape.
    pub bare: usize,
}

/// The answer for the smallest typing.
#[derive(Clone, Copy, PartialEq, Eq, Debug)]
pub enum Smallest {
    /// The number of pairs of the closure, all of them met.
    Pairs(usize),
    /// Refusal 50: the lowest card, and then the lowest shape, of the closure that isn't met.
    NotMet(Card, Shape),
}

/// Both typings of one sheet, the smallest for one desk.
#[derive(Clone, PartialEq, Eq, Debug)]
pub struct Both {
    /// The count of shapes, S, which a reader of the grids needs.
    pub shapes: u16,
    /// The largest typing's answer and grid.
    pub largest: (Largest, Grid),
    /// The smallest typing's answer and grid.
    pub smallest: (Smallest, Grid),
}

/// The largest typing of one sheet, and the smallest for each desk.
#[derive(Clone, PartialEq, Eq, Debug)]
pub struct Typings {
    /// The count of shapes, S, which a reader of the grids needs.
    pub shapes: u16,
    /// The largest typing's answer and grid.
    pub largest: (Largest, Grid),
    /// The answer and the grid of each desk's smallest typing.
    pub smallest: [(Smallest, Grid); 2],
}

impl Setting {
    /// Reads the template, then the script.
    pub fn read(template_words: &[u16], script_words: &[u16]) -> Result<Setting, Refusal> {
        let template = template::read(template_words)?;
        let script = script::read_under(&template, script_words)?;
        Ok(Setting { template, script })
    }

    /// The size of a grid, N × S.
    pub fn size(&self) -> usize {
        usize::from(self.script.cards) * usize::from(self.template.shapes())
    }

    /// The place of a pair in a grid.
    pub fn place(&self, (card, shape): Pair) -> usize {
        card.index() * usize::from(self.template.shapes()) + shape.index()
    }

    /// All cards, ascending.
    pub fn cards(&self) -> impl Iterator<Item = Card> {
        (0..self.script.cards).map(Card)
    }

    /// All pairs, in the order of their places.
    pub fn pairs(&self) -> impl Iterator<Item = Pair> {
        let shapes = self.template.shapes();
        self.cards()
            .flat_map(move |card| (0..shapes).map(move |shape| (card, Shape(shape))))
    }

    /// How many cards with some link have no shape in a grid.
    fn bare(&self, grid: &[u8]) -> usize {
        let rows = grid.chunks(usize::from(self.template.shapes()));
        rows.zip(self.script.blank())
            .filter(|(row, blank)| !blank && row.iter().all(|byte| *byte == 0))
            .count()
    }
}

/// The largest typing, written into a grid of the right size.
pub fn largest(template: &[u16], script: &[u16], grid: &mut [u8]) -> Result<Largest, Refusal> {
    largest_by(links::largest, template, script, grid)
}

/// The same, round by round as the definition says.
pub fn largest_by_rounds(template: &[u16], script: &[u16], grid: &mut [u8]) -> Result<Largest, Refusal> {
    largest_by(rounds::largest, template, script, grid)
}

fn largest_by(
    method: fn(&Setting) -> (Largest, Grid),
    template: &[u16],
    script: &[u16],
    grid: &mut [u8],
) -> Result<Largest, Refusal> {
    let setting = Setting::read(template, script)?;
    if grid.len() != setting.size() {
        return Err(Refusal::at(40, 0));
    }
    let (answer, typing) = method(&setting);
    grid.copy_from_slice(&typing);
    Ok(answer)
}

/// The smallest typing for a desk, written into a grid of the right size; all 0 if the answer is 50.
pub fn smallest(
    template: &[u16],
    script: &[u16],
    booking_words: &[u16],
    desk: u16,
    grid: &mut [u8],
) -> Result<Smallest, Refusal> {
    let (setting, booked) = read_for(template, script, booking_words, desk)?;
    if grid.len() != setting.size() {
        return Err(Refusal::at(40, 0));
    }
    let (answer, typing) = closure::smallest(&setting, &booked);
    grid.copy_from_slice(&typing);
    Ok(answer)
}

/// Both typings for a desk, unless template, script, bookings or the desk are refused, in this order. The counts of
/// each pair are tested once, and both typings share that.
pub fn both(template: &[u16], script: &[u16], booking_words: &[u16], desk: u16) -> Result<Both, Refusal> {
    let (setting, booked) = read_for(template, script, booking_words, desk)?;
    let fits = counting::all(&setting);
    Ok(Both {
        shapes: setting.template.shapes(),
        largest: links::largest_where(&setting, &fits),
        smallest: closure::smallest_where(&setting, &booked, &fits),
    })
}

/// The same, the largest typing round by round as the definition says. The two typings share nothing.
pub fn both_by_rounds(
    template: &[u16],
    script: &[u16],
    booking_words: &[u16],
    desk: u16,
) -> Result<Both, Refusal> {
    let (setting, booked) = read_for(template, script, booking_words, desk)?;
    Ok(Both {
        shapes: setting.template.shapes(),
        largest: rounds::largest(&setting),
        smallest: closure::smallest(&setting, &booked),
    })
}

/// The largest typing and the smallest for each desk. The counts of each pair are tested once, for all of them.
pub fn typings(template: &[u16], script: &[u16], booking_words: &[u16]) -> Result<Typings, Refusal> {
    let (setting, booked) = read(template, script, booking_words)?;
    let fits = counting::all(&setting);
    let smallest = |desk| closure::smallest_where(&setting, &bookings::of(desk, &booked), &fits);
    Ok(Typings {
        shapes: setting.template.shapes(),
        largest: links::largest_where(&setting, &fits),
        smallest: Desk::BOTH.map(smallest),
    })
}

/// Reads the template, the script and then the bookings of both desks.
pub fn read(
    template: &[u16],
    script: &[u16],
    booking_words: &[u16],
) -> Result<(Setting, Vec<Booking>), Refusal> {
    let setting = Setting::read(template, script)?;
    let booked = bookings::read(&setting, booking_words)?;
    Ok((setting, booked))
}

/// The same, and then the desk of the call: what that desk books.
fn read_for(
    template: &[u16],
    script: &[u16],
    booking_words: &[u16],
    desk: u16,
) -> Result<(Setting, Vec<Pair>), Refusal> {
    let (setting, booked) = read(template, script, booking_words)?;
    let desk = asked(desk)?;
    Ok((setting, bookings::of(desk, &booked)))
}

/// The desk that a call names; 66 at place 0 if there is no such desk.
pub fn asked(desk: u16) -> Result<Desk, Refusal> {
    Desk::numbered(desk).ok_or(Refusal::at(66, 0))
}
