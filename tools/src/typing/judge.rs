//! *Judge a grid*: is a grid that some program made a sound typing that holds a desk's bookings? Refusals 66 for the
//! call's desk, 40 and 61 to 63, after those of the three files.
//!
//! There are two methods. `judge` tests a pair by its card's counts and by the shape that is named for each link.
//! `judge_by_choices` takes the definition at its word: every choice of shapes for the far cards is tried, and the bag
//! is looked up among the bags of the shape's part. That is for pairs that have at most `TRIED_LINKS` links to choose
//! for and leave at most `TRIED_CHOICES` choices; pairs beyond this line are tested as `judge` tests them.

use super::bookings::Booking;
use super::counting::Counting;
use super::{asked, met, read, Pair, Setting};
use crate::desk::Desk;
use crate::numbers::{Card, Shape};
use crate::refusal::Refusal;

/// The most links of a pair for which every choice of shapes is tried; a link to itself may count twice.
pub const TRIED_LINKS: usize = 6;
/// The most choices of shapes that are tried for a pair.
pub const TRIED_CHOICES: usize = 729;

/// The answer for a grid of the right size whose bytes are 0 and 1.
#[derive(Clone, Copy, PartialEq, Eq, Debug)]
pub enum Judged {
    /// The grid is a sound typing that holds the desk's bookings.
    Accepted,
    /// Refusal 62: the lowest card, and then the lowest shape, of the pairs of the grid that aren't met under it.
    NotMet(Card, Shape),
}

/// An answer as docs/FORMAT.md writes it.
pub fn answer(judged: Result<Judged, Refusal>) -> String {
    match judged {
        Ok(Judged::Accepted) => "accepted".to_string(),
        Ok(Judged::NotMet(card, shape)) => format!("refused 62 {} {}", card.0, shape.0),
        Err(refusal) => format!("refused {} {}", refusal.number, refusal.place),
    }
}

/// Finds the lowest pair of a grid that isn't met under it.
type Method = fn(&Setting, &[u8]) -> Option<Pair>;

/// Judges a grid, each pair by its counts and by the shapes that are named for its links.
pub fn judge(
    template: &[u16],
    script: &[u16],
    booking_words: &[u16],
    desk: u16,
    grid: &[u8],
) -> Result<Judged, Refusal> {
    judge_by(not_met, template, script, booking_words, desk, grid)
}

/// The same by trying every choice of shapes, as far as `can_be_tried` says.
pub fn judge_by_choices(
    template: &[u16],
    script: &[u16],
    booking_words: &[u16],
    desk: u16,
    grid: &[u8],
) -> Result<Judged, Refusal> {
    judge_by(not_met_by_choices, template, script, booking_words, desk, grid)
}

fn judge_by(
    method: Method,
    template: &[u16],
    script: &[u16],
    booking_words: &[u16],
    desk: u16,
    grid: &[u8],
) -> Result<Judged, Refusal> {
    let (setting, booked) = read(template, script, booking_words)?;
    judged_by(method, &setting, (asked(desk)?, &booked), grid)
}

/// A desk, and the bookings of both desks.
type Bookings<'a> = (Desk, &'a [Booking]);

/// Judges a grid of a sheet that is read, by the first of the two methods.
pub fn judged(setting: &Setting, bookings: Bookings, grid: &[u8]) -> Result<Judged, Refusal> {
    judged_by(not_met, setting, bookings, grid)
}

/// Every byte is looked at before any pair, and every pair before any booking of the desk.
fn judged_by(
    method: Method,
    setting: &Setting,
    (desk, booked): Bookings,
    grid: &[u8],
) -> Result<Judged, Refusal> {
    if grid.len() != setting.size() {
        return Err(Refusal::at(40, 0));
    }
    if let Some(place) = grid.iter().position(|byte| *byte > 1) {
        return Err(Refusal::at(61, place));
    }
    if let Some((card, shape)) = method(setting, grid) {
        return Ok(Judged::NotMet(card, shape));
    }
    let is_lacking = |(whose, pair): &Booking| *whose == desk && grid[setting.place(*pair)] == 0;
    match booked.iter().position(is_lacking) {
        Some(booking) => Err(Refusal::at(63, 2 + 3 * booking)),
        None => Ok(Judged::Accepted),
    }
}

/// The lowest pair that isn't met: its card's counts don't fit, or the far card of a link hasn't the shape that is
/// named for the link's label.
fn not_met(setting: &Setting, grid: &[u8]) -> Option<Pair> {
    let named = setting.template.named();
    let mut counting = Counting::new(setting);
    let rows = grid.chunks(usize::from(setting.template.shapes()));
    for (card, row) in setting.cards().zip(rows).filter(|(_, row)| row.contains(&1)) {
        counting.turn_to(card);
        for (shape, _) in (0..).map(Shape).zip(row).filter(|(_, byte)| **byte == 1) {
            let mut needs = met::needs(setting, &named[shape.index()], card);
            if !counting.fits(shape) || needs.any(|(_, far)| grid[setting.place(far)] == 0) {
                return Some((card, shape));
            }
        }
    }
    None
}

/// The lowest pair that isn't met, by choices where they can be tried.
fn not_met_by_choices(setting: &Setting, grid: &[u8]) -> Option<Pair> {
    let is_met = |pair: Pair| match can_be_tried(setting, grid, pair) {
        true => met::met_by_choices(setting, grid, pair),
        false => met::met(setting, grid, pair),
    };
    setting
        .pairs()
        .find(|pair| grid[setting.place(*pair)] == 1 && !is_met(*pair))
}

/// Whether a pair's links and the shapes of the cards at their far ends are few enough to try every choice. A far card
/// without a shape counts as one with a single shape, because all choices up to it are tried.
pub fn can_be_tried(setting: &Setting, grid: &[u8], pair: Pair) -> bool {
    let shapes = usize::from(setting.template.shapes());
    let row = |card: Card| &grid[card.index() * shapes..(card.index() + 1) * shapes];
    let shapes_of = |card: Card| row(card).iter().filter(|byte| **byte == 1).count().max(1);
    let ends = met::chosen_for(setting, pair);
    ends.len() <= TRIED_LINKS && ends.iter().map(|end| shapes_of(end.far)).product::<usize>() <= TRIED_CHOICES
}
