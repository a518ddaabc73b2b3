//! Whether the counts of a card's links fit a shape, for one card after the other. Nothing is allocated per card:
//! the counts of the last card are taken back link by link.

use super::Setting;
use crate::fit::ready::{bit, Ready};
use crate::labels::Labelled;
use crate::numbers::{Card, Shape};

/// For each pair, by its place, whether its card's counts fit its shape: one test of each pair, which all that ask
/// for it can share.
pub fn all(setting: &Setting) -> Vec<bool> {
    let mut fits = Vec::with_capacity(setting.size());
    let mut counting = Counting::new(setting);
    for card in setting.cards() {
        counting.turn_to(card);
        fits.extend((0..setting.template.shapes()).map(|shape| counting.fits(Shape(shape))));
    }
    fits
}

/// The counts of one card's links.
pub struct Counting<'a> {
    setting: &'a Setting,
    /// The shapes, made ready.
    shapes: Vec<Ready>,
    /// The card whose links are counted.
    card: Option<Card>,
    /// Its count of links with each label.
    counts: Labelled<u16>,
    /// The labels that it has links with.
    present: u128,
}

impl<'a> Counting<'a> {
    /// No card is counted yet.
    pub fn new(setting: &'a Setting) -> Counting<'a> {
        let template = &setting.template;
        let ready = |definition| Ready::new(definition, template.kinds);
        Counting {
            setting,
            shapes: template.definitions.iter().map(ready).collect(),
            card: None,
            counts: Labelled::new(template.kinds, 0),
            present: 0,
        }
    }

    /// Counts the links of this card instead of the last one's, unless it is the same.
    pub fn turn_to(&mut self, card: Card) {
        if self.card == Some(card) {
            return;
        }
        let script = &self.setting.script;
        if let Some(last) = self.card.replace(card) {
            for end in script.ends_of(last) {
                self.counts[end.label] = 0;
            }
        }
        self.present = 0;
        for end in script.ends_of(card) {
            self.counts[end.label] += 1;
            self.present |= bit(end.label);
        }
    }

    /// Whether the counts fit a shape.
    pub fn fits(&self, shape: Shape) -> bool {
        self.shapes[shape.index()].fits(&self.counts, self.present)
    }
}
