//! Shapes made for a card: they name what the card has, in any order, with bounds that its counts keep to or just
//! miss.
//!
//! Most are *flat*: a link, nothing, or an all of links, nothing and such alls, under up to two stars, pluses and
//! optionals. Others are nearly flat: one of the links lies in a star, a plus, an optional or a choice of its own.
//! `groups` has shapes of several groups.

pub mod groups;

use crate::generate::parts::{wrapped, Bounds};
use crate::labels::{Label, Labelled, Way};
use crate::numbers::{Kind, Shape};
use crate::random::Random;
use crate::template::{Definition, Part, MOST_COUNT};

/// What a flat part may stand under; the first ones take several of its bags.
const WRAPS: [fn(Box<Part>) -> Part; 3] = [Part::Star, Part::Plus, Part::Optional];
/// How many of these take several bags.
const SEVERAL: usize = 2;

/// Makes the shapes of a sheet, but for the last one, which every card has.
pub struct Maker<'a> {
    /// The source of numbers.
    pub random: &'a mut Random,
    /// The counts of each card.
    pub models: Vec<Labelled<u16>>,
    /// The kinds to name, ascending.
    pub pool: Vec<u16>,
    /// The count of shapes, with the last one.
    pub shapes: u16,
    /// Whether links that arrive are named.
    pub names_arriving: bool,
    /// Whether links ask for any shape; if not, for the last one.
    pub asks_for_any: bool,
}

impl Maker<'_> {
    /// A shape that one of the cards fits by its counts, unless the bounds of a link are made to miss its count.
    pub fn definition(&mut self) -> Definition {
        let model = self.models[self.random.below(self.models.len())].clone();
        let open = self.random.chance(1, 3);
        let mut labels = self.labels(&model, open);
        order(self.random, &mut labels);
        let wraps: Vec<usize> = (0..self.random.pick(&[0, 1, 1, 1, 2]))
            .map(|_| self.random.below(WRAPS.len()))
            .collect();
        let bags = match wraps.iter().any(|wrap| *wrap < SEVERAL) {
            true => self.random.word(1, 3),
            false => 1,
        };
        let mut parts = self.links(&labels, &model, bags);
        if !parts.is_empty() && self.random.chance(1, 4) {
            nearly(self.random, &mut parts);
        }
        let inner = nested(self.random, parts, 3);
        let wrap = |part, wrap: &usize| WRAPS[*wrap](Box::new(part));
        Definition {
            open,
            part: wraps.iter().fold(inner, wrap),
        }
    }

    /// The labels to name: those of the model's links, but of an open shape not all of them, and a few others.
    fn labels(&mut self, model: &Labelled<u16>, open: bool) -> Vec<Label> {
        let mut labels = Vec::new();
        for way in Way::BOTH {
            for kind in &self.pool {
                let kind = Kind(*kind);
                let label = Label { way, kind };
                let share = match way {
                    _ if model[label] == 0 => 2,
                    Way::Outgoing if !open => 8,
                    _ => 4,
                };
                let may_be_named = way == Way::Outgoing || self.names_arriving;
                if may_be_named && self.random.chance(share, 8) {
                    labels.push(label);
                }
            }
        }
        labels
    }

    /// A link for each label, to which the model's counts keep as those of so many bags; perhaps all but one. In some
    /// shapes no link has to be there.
    fn links(&mut self, labels: &[Label], model: &Labelled<u16>, bags: u16) -> Vec<Part> {
        let missed = match self.random.chance(1, 3) {
            true => self.random.below(labels.len().max(1)),
            false => labels.len(),
        };
        let takes_none = self.random.chance(1, 4);
        let mut links = Vec::new();
        for label in labels {
            let (low, high) = match links.len() == missed {
                true => missing(self.random, model[*label]),
                false => keeping(self.random, model[*label], bags),
            };
            let low = if takes_none { 0 } else { low };
            links.push(Part::link(*label, self.far(), low, high));
        }
        links
    }

    /// The shape for the far end of a link.
    fn far(&mut self) -> Shape {
        let last = self.shapes - 1;
        match self.asks_for_any && self.random.chance(1, 3) {
            true => Shape(self.random.word(0, last)),
            false => Shape(last),
        }
    }
}

/// Puts labels that ascend into one of four orders: ascending, descending, every other one first, or any.
fn order(random: &mut Random, labels: &mut Vec<Label>) {
    match random.below(4) {
        0 => {}
        1 => labels.reverse(),
        2 => {
            let (even, odd) = (labels.iter().step_by(2), labels.iter().skip(1).step_by(2));
            *labels = odd.chain(even).copied().collect();
        }
        _ => random.shuffle(labels),
    }
}

/// Bounds that a count keeps to as that of so many bags.
fn keeping(random: &mut Random, count: u16, bags: u16) -> Bounds {
    let (least, most) = (count / bags, count.div_ceil(bags));
    match random.below(8) {
        0 => (0, None),
        1 => (least, None),
        2 => (0, Some(most)),
        3 => (random.word(0, least), Some(most + random.word(0, 2))),
        _ => (least, Some(most)),
    }
}

/// Bounds that are too high or too low for a count, or that take none.
fn missing(random: &mut Random, count: u16) -> Bounds {
    match random.below(6) {
        0 | 1 => (MOST_COUNT, random.pick(&[None, Some(MOST_COUNT)])),
        2 => (count + 1, random.pick(&[None, Some(count + 1), Some(MOST_COUNT)])),
        3 => (0, Some(0)),
        _ => (0, Some(count.saturating_sub(1))),
    }
}

/// Puts one of the links into a part of its own: a star, a plus, an optional, or a choice with nothing or another
/// link.
fn nearly(random: &mut Random, links: &mut Vec<Part>) {
    let link = links.remove(random.below(links.len()));
    let part = match random.below(6) {
        0 => Part::Choice(vec![link, Part::Nothing]),
        1 | 2 if !links.is_empty() => {
            let other = links.remove(random.below(links.len()));
            Part::Choice(vec![link, other])
        }
        _ => wrapped(random, link),
    };
    links.insert(random.below(links.len() + 1), part);
}

/// An all of these parts. Some may lie in alls of their own, up to this depth, and nothing may stand beside them.
fn nested(random: &mut Random, mut parts: Vec<Part>, depth: usize) -> Part {
    if random.chance(1, 8) {
        parts.insert(random.below(parts.len() + 1), Part::Nothing);
    }
    if parts.len() < 3 || depth == 0 || random.chance(1, 2) {
        return Part::all_of(parts);
    }
    let second = parts.split_off(random.between(1, parts.len() - 1));
    Part::All(vec![
        nested(random, parts, depth - 1),
        nested(random, second, depth - 1),
    ])
}
