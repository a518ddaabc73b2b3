//! A sheet that was loaded and run: its text, its words and its typings.

use super::compile::Compiled;
use super::form::Form;
use super::load::load_text;
use super::{report, Spot, Text};
use crate::desk::Desk;
use crate::numbers::{Card, Shape};
use crate::typing::bookings::{self, Booking};
use crate::typing::{Pair, Setting, Smallest, Typings};

/// A sheet with its words and its typings.
#[derive(Clone, Debug)]
pub struct Sheet {
    /// Its text; a sheet of words has numbers for names.
    pub text: Text,
    /// Its words.
    pub compiled: Compiled,
    /// Its template and script.
    pub setting: Setting,
    /// Its bookings, those of both desks.
    pub booked: Vec<Booking>,
    /// Its typings.
    pub typings: Typings,
    /// For each card, whether it is blank: no link starts at it and none leads to it.
    pub blank: Vec<bool>,
    /// What it was loaded from.
    pub form: Form,
}

/// Reads a text called `file` and runs its sheet. An error starts with the file's name, line and column.
pub fn run(file: &str, source: &str) -> Result<Sheet, String> {
    load_text(file, source.as_bytes()).map_err(|trouble| trouble.to_string())
}

impl Sheet {
    /// Whether the pair is in a grid.
    pub fn has(&self, grid: &[u8], pair: Pair) -> bool {
        grid[self.setting.place(pair)] == 1
    }

    /// The cards that have shapes in a grid, each with these shapes.
    pub fn cards_with_shapes(&self, grid: &[u8]) -> Vec<(Card, Vec<Shape>)> {
        let rows = grid.chunks(usize::from(self.typings.shapes));
        let shapes = |row: &[u8]| {
            let all = (0..self.typings.shapes).map(Shape).zip(row);
            all.filter(|(_, byte)| **byte == 1)
                .map(|(shape, _)| shape)
                .collect()
        };
        let cards = self.setting.cards().zip(rows.map(shapes));
        cards
            .filter(|(_, shapes): &(Card, Vec<Shape>)| !shapes.is_empty())
            .collect()
    }

    /// What a desk books.
    pub fn booked_by(&self, desk: Desk) -> Vec<Pair> {
        bookings::of(desk, &self.booked)
    }

    /// Whether a desk's smallest typing has the pair.
    pub fn needed_by(&self, desk: Desk, pair: Pair) -> bool {
        self.has(&self.typings.smallest[desk.index()].1, pair)
    }

    /// The desks whose bookings can't be met, each with the pair of refusal 50.
    pub fn all_not_met(&self) -> impl Iterator<Item = (Desk, Pair)> + '_ {
        Desk::BOTH
            .into_iter()
            .filter_map(|desk| Some((desk, self.not_met(desk)?)))
    }

    /// Whether all that both desks book is met.
    pub fn is_met(&self) -> bool {
        self.all_not_met().next().is_none()
    }

    /// A desk's pair of refusal 50, if there is one.
    pub fn not_met(&self, desk: Desk) -> Option<Pair> {
        match self.typings.smallest[desk.index()].0 {
            Smallest::NotMet(card, shape) => Some((card, shape)),
            Smallest::Pairs(_) => None,
        }
    }

    /// Whether a card has no shape in the largest typing.
    fn shapeless(&self, card: usize) -> bool {
        let shapes = usize::from(self.typings.shapes);
        let row = &self.typings.largest.1[card * shapes..(card + 1) * shapes];
        row.iter().all(|byte| *byte == 0)
    }

    /// Whether a card has some link and no shape in the largest typing.
    pub fn bare(&self, card: usize) -> bool {
        self.shapeless(card) && !self.blank[card]
    }

    /// Whether a card is blank and has no shape in the largest typing.
    pub fn blank_and_shapeless(&self, card: usize) -> bool {
        self.shapeless(card) && self.blank[card]
    }

    /// Where the card is introduced; nowhere in a sheet of words.
    pub fn card_spot(&self, card: usize) -> Option<Spot> {
        (self.form == Form::Text).then(|| self.text.cards[card].0.spot)
    }

    /// The outcome in words.
    pub fn report(&self, file: &str) -> String {
        report::report(self, file)
    }
}
