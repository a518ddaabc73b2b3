//! Why a card can't have a shape, and who asks for a pair of the closure.

use super::check::Sheet;
use super::misfit::{misfit, Misfit};
use super::roots::Roots;
use crate::desk::Desk;
use crate::labels::Label;
use crate::numbers::{Card, Shape};
use crate::typing::met::{chosen_for, needs, Need};
use crate::typing::{closure, Pair, Setting};
use std::collections::{HashMap, VecDeque};

/// Why a pair isn't in the largest typing.
#[derive(Clone, Debug)]
pub struct Reason {
    /// The pair.
    pub pair: Pair,
    /// The steps to the pair that is to blame; none if that is the pair itself.
    pub steps: Vec<Need>,
    /// What is wrong with the links of the card that is to blame.
    pub misfit: Misfit,
    /// How many links of the card itself are missing, too many, or join it to a card that can't be what it must be.
    pub distance: u64,
    /// Whether the card has a link at which the shape looks and that it doesn't name.
    pub strange: bool,
}

impl Reason {
    /// The pair that is to blame.
    pub fn root(&self) -> Pair {
        self.steps.last().map_or(self.pair, |(_, pair)| *pair)
    }
}

/// Why a pair isn't in the largest typing of a sheet; none if it is.
pub fn reason(sheet: &Sheet, roots: &Roots, pair: Pair) -> Option<Reason> {
    let steps = roots.steps(pair)?;
    let root = steps.last().map_or(pair, |(_, pair)| *pair);
    let own = own_misfit(&sheet.setting, pair);
    let distance = own.as_ref().map_or(0, Misfit::distance);
    let needed = asked_for(&sheet.setting, pair);
    let is_missing = |need: &&Need| !sheet.has(&sheet.typings.largest.1, need.1);
    let far = needed.iter().filter(is_missing).count() as u64;
    Some(Reason {
        pair,
        misfit: match own {
            Some(own) => own,
            None => own_misfit(&sheet.setting, root)?,
        },
        steps,
        distance: distance + far,
        strange: is_strange(&sheet.setting, pair),
    })
}

/// Why a card has none of the shapes, the nearest shape first.
pub fn reasons(sheet: &Sheet, roots: &Roots, card: usize) -> Vec<Reason> {
    let card = Card(card as u16);
    let shapes = (0..sheet.typings.shapes).map(Shape);
    let mut reasons: Vec<Reason> = shapes
        .filter_map(|shape| reason(sheet, roots, (card, shape)))
        .collect();
    reasons.sort_by_key(|reason| reason.distance);
    reasons
}

/// Why pairs that a desk's bookings ask for aren't met, in the order of the pairs; the first is that of 50. Only those
/// whose own links don't fit are told, because the others lead to one of them.
pub fn all_not_met(sheet: &Sheet, roots: &Roots, desk: Desk) -> Vec<Reason> {
    let closure = closure::closure(&sheet.setting, &sheet.booked_by(desk));
    let asked = sheet.setting.pairs().filter(|pair| sheet.has(&closure, *pair));
    asked
        .filter_map(|pair| reason(sheet, roots, pair))
        .filter(|reason| reason.steps.is_empty())
        .collect()
}

/// Why the links of a card don't fit a shape by their counts; none if they do.
pub fn own_misfit(setting: &Setting, (card, shape): Pair) -> Option<Misfit> {
    let counts = setting.script.counts_of(card, setting.template.kinds);
    misfit(setting.template.definition(shape), &counts)
}

/// What a pair asks for.
pub fn asked_for(setting: &Setting, (card, shape): Pair) -> Vec<Need> {
    let named = setting.template.part(shape).named(setting.template.kinds);
    needs(setting, &named, card).collect()
}

/// Whether the card has a link at which the shape looks and that it doesn't name: it starts at the card, and the shape
/// is closed.
fn is_strange(setting: &Setting, pair: Pair) -> bool {
    let named = setting.template.part(pair.1).named(setting.template.kinds);
    chosen_for(setting, pair)
        .iter()
        .any(|end| named[end.label].is_none())
}

/// One step of the path from a booking to a pair: the pair that asks, and the label by which it does.
pub type Step = (Pair, Label);

/// The shortest path from a booking to a pair of the closure; empty if the pair is booked itself.
pub fn path(setting: &Setting, booked: &[Pair], goal: Pair) -> Option<Vec<Step>> {
    let named = setting.template.named();
    let key = |(card, shape): Pair| (card.0, shape.0);
    let mut before: HashMap<(u16, u16), Option<Step>> = HashMap::new();
    let mut queue: VecDeque<Pair> = VecDeque::new();
    for pair in booked {
        if before.insert(key(*pair), None).is_none() {
            queue.push_back(*pair);
        }
    }
    while let Some((card, shape)) = queue.pop_front() {
        for (label, next) in needs(setting, &named[shape.index()], card) {
            before.entry(key(next)).or_insert_with(|| {
                queue.push_back(next);
                Some(((card, shape), label))
            });
        }
    }
    let mut steps = Vec::new();
    let mut at = goal;
    while let Some(step) = before.get(&key(at))? {
        steps.push(*step);
        at = step.0;
    }
    steps.reverse();
    Some(steps)
}
