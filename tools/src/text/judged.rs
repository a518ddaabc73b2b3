//! What is said about a grid that is judged.

use super::check::Sheet;
use super::form::Form;
use super::misfit::Misfit;
use super::reasons::{asked_for, own_misfit, reason, Reason};
use super::report::counted;
use super::roots::Roots;
use super::sentences::{because, called, far_cards, wrong};
use super::told::Told;
use super::trouble::place;
use super::{explain, roles};
use crate::desk::Desk;
use crate::numbers::Card;
use crate::refusal::Refusal;
use crate::typing::judge::{judged, Judged};
use crate::typing::met::Need;
use crate::typing::Pair;

/// What is said about a grid.
#[derive(Clone, Debug)]
pub enum Verdict {
    /// It is accepted.
    Accepted(Accepted),
    /// Refusal 62: a pair of it isn't met under it.
    NotMet(NotMet),
    /// Another refusal of the grid, as a whole or at a word of the sheet: 40, 61 or 63.
    Refused(Told),
}

/// A grid that is accepted: how many pairs it has, and those between which it lies.
#[derive(Clone, Copy, PartialEq, Eq, Debug)]
pub struct Accepted {
    /// The bookings that it holds.
    pub booked: usize,
    /// Its own pairs.
    pub pairs: usize,
    /// Those of the desk's smallest typing.
    pub smallest: usize,
    /// Those of the largest.
    pub largest: usize,
}

/// A pair that isn't met under a grid.
#[derive(Clone, Debug)]
pub struct NotMet {
    /// The pair.
    pub pair: Pair,
    /// Why its card's own links don't fit; none if they do.
    pub misfit: Option<Misfit>,
    /// What it asks for and the grid hasn't, if its links fit.
    pub missing: Vec<Need>,
    /// Why no sound typing has it, if that is up to another card.
    pub never: Option<Reason>,
}

/// Judges a grid of a sheet for a desk.
pub fn judge(sheet: &Sheet, desk: Desk, grid: &[u8]) -> Verdict {
    match judged(&sheet.setting, (desk, &sheet.booked), grid) {
        Ok(Judged::Accepted) => Verdict::Accepted(accepted(sheet, desk, grid)),
        Ok(Judged::NotMet(card, shape)) => Verdict::NotMet(not_met(sheet, grid, (card, shape))),
        Err(refusal) => Verdict::Refused(match refusal.number {
            40 => wrong_size(sheet, grid.len()),
            61 => byte(sheet, refusal.place, Some(grid[refusal.place])),
            _ => booking(sheet, refusal),
        }),
    }
}

fn accepted(sheet: &Sheet, desk: Desk, grid: &[u8]) -> Accepted {
    let pairs = |grid: &[u8]| grid.iter().filter(|byte| **byte == 1).count();
    Accepted {
        booked: sheet.booked_by(desk).len(),
        pairs: pairs(grid),
        smallest: pairs(&sheet.typings.smallest[desk.index()].1),
        largest: pairs(&sheet.typings.largest.1),
    }
}

fn not_met(sheet: &Sheet, grid: &[u8], pair: Pair) -> NotMet {
    let asked = asked_for(&sheet.setting, pair).into_iter();
    NotMet {
        pair,
        misfit: own_misfit(&sheet.setting, pair),
        missing: asked.filter(|need| !sheet.has(grid, need.1)).collect(),
        never: never(sheet, pair),
    }
}

/// Why no sound typing has a pair whose own links fit; none if one has it or if its links don't fit.
fn never(sheet: &Sheet, pair: Pair) -> Option<Reason> {
    let reason = reason(sheet, &Roots::new(&sheet.setting), pair)?;
    (!reason.steps.is_empty()).then_some(reason)
}

/// Refusal 40: how many bytes there should be.
fn wrong_size(sheet: &Sheet, bytes: usize) -> Told {
    let (cards, shapes) = (sheet.text.cards.len(), sheet.text.shapes.len());
    let note = format!(
        "it has {}; {} times {} are {}",
        counted(bytes, "byte"),
        counted(cards, "card"),
        counted(shapes, "shape"),
        sheet.setting.size()
    );
    Told::without_word(Refusal::at(40, 0), Some(note))
}

/// Refusal 61: what the byte at a place stands for, and what it is, if that is known.
pub fn byte(sheet: &Sheet, place: usize, value: Option<u8>) -> Told {
    let shapes = sheet.text.shapes.len();
    let (card, shape) = (Card((place / shapes) as u16), place % shapes);
    let value = value.map_or(String::new(), |value| format!("byte {place} is {value}; "));
    let (who, what) = (called(&sheet.text, card), sheet.text.shape_name(shape));
    let note = format!("{value}0 or 1 there says whether {who} is {what}");
    Told {
        spot: sheet.card_spot(card.index()),
        ..Told::without_word(Refusal::at(61, place), Some(note))
    }
}

/// Refusal 63: the booking that isn't held.
pub fn booking(sheet: &Sheet, refusal: Refusal) -> Told {
    let (desk, (card, shape)) = sheet.booked[(refusal.place - 2) / 3];
    let who = sheet.text.card_title(card.index());
    let what = sheet.text.shape_name(shape.index());
    let desk = desk.name();
    let told = match sheet.form {
        Form::Text => explain::tell(&sheet.compiled, refusal),
        Form::Words => roles::tell(&sheet.compiled.files(), refusal),
    };
    Told {
        note: Some(format!(
            "{who} is booked by {desk} as {what}, which it isn't in the grid"
        )),
        ..told
    }
}

/// What is said in words about a grid that is judged for a desk: the names of the sheet's file and of the grid's.
pub fn words(sheet: &Sheet, desk: Desk, (file, grid_file): (&str, &str), verdict: &Verdict) -> String {
    match verdict {
        Verdict::Accepted(accepted) => accepted_words(file, desk, accepted),
        Verdict::NotMet(not_met) => not_met_words(sheet, file, not_met),
        Verdict::Refused(told) => {
            let file = if told.refusal.number == 40 {
                grid_file
            } else {
                file
            };
            format!("{}: {told}\n", place(file, told.spot))
        }
    }
}

/// What it means that a grid is accepted.
fn accepted_words(file: &str, desk: Desk, accepted: &Accepted) -> String {
    let name = desk.name();
    let holds = match accepted.booked {
        0 => format!("; nothing is booked by {name}"),
        1 => format!(" that holds the one booking of {name}"),
        count => format!(" that holds all {count} bookings of {name}"),
    };
    format!(
        "{file}: the grid is accepted: a sound typing{holds}\n  \
         it has {}; the smallest typing has {}, the largest {}\n",
        counted(accepted.pairs, "pair"),
        accepted.smallest,
        accepted.largest
    )
}

fn not_met_words(sheet: &Sheet, file: &str, not_met: &NotMet) -> String {
    let (card, _) = not_met.pair;
    let (start, why) = (place(file, sheet.card_spot(card.index())), not_met.why(sheet));
    let number = number_62(not_met.pair);
    format!("{start}: {why}\n{number}{}", never_words(sheet, &not_met.never))
}

impl NotMet {
    /// Why the pair isn't met, in words.
    pub fn why(&self, sheet: &Sheet) -> String {
        let (text, (card, shape)) = (&sheet.text, self.pair);
        let who = text.card_title(card.index());
        let what = text.shape_name(shape.index());
        match &self.misfit {
            Some(misfit) => format!("{who} can't be {what}: {}", wrong(text, misfit)),
            None => {
                let missing = far_cards(text, &self.missing, "isn't");
                format!("{who} isn't {what} under the grid: {missing}")
            }
        }
    }
}

fn number_62((card, shape): Pair) -> String {
    let meaning = Refusal::at(62, 0).meaning();
    format!("  refused 62 {} {}: {meaning}\n", card.0, shape.0)
}

fn never_words(sheet: &Sheet, never: &Option<Reason>) -> String {
    never.as_ref().map_or(String::new(), |reason| {
        let why = because(&sheet.text, reason);
        format!("  no sound typing has this pair: {why}\n")
    })
}

/// What refusal 62 means for a sheet, as far as can be said without the grid; none if every grid meets the pair.
pub fn explain_pair(sheet: &Sheet, file: &str, pair: Pair) -> Option<String> {
    let (text, (card, shape)) = (&sheet.text, pair);
    let who = text.card_title(card.index());
    let what = text.shape_name(shape.index());
    let start = place(file, sheet.card_spot(card.index()));
    let number = number_62(pair);
    if let Some(misfit) = own_misfit(&sheet.setting, pair) {
        let why = wrong(text, &misfit);
        return Some(format!("{start}: {who} can't be {what}: {why}\n{number}"));
    }
    let asked = asked_for(&sheet.setting, pair);
    if asked.is_empty() {
        return None;
    }
    let never = never_words(sheet, &never(sheet, pair));
    let must = far_cards(text, &asked, "must be");
    Some(format!(
        "{start}: {who} isn't {what} under the grid that was judged\n{number}{never}  {must}; \
         `judge FILE GRID` tells what the grid lacks\n"
    ))
}
