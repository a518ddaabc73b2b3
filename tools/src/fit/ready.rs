//! Shapes made ready for many counts: each part knows the labels within it and its interval if they all count 0. So
//! only the parts with a label that counts something are looked into, and a group ends at its first empty interval.

use super::intervals::{link_interval, verdict, Interval};
use crate::labels::{Label, Labelled, Way};
use crate::template::{Definition, Link, Part, MOST_KINDS};

/// A shape made ready.
#[derive(Clone, Debug)]
pub struct Ready {
    part: ReadyPart,
    /// The labels that have to count 0 because the part doesn't name them, a bit each.
    barred: u128,
}

/// A part made ready.
#[derive(Clone, Debug)]
struct ReadyPart {
    /// The labels within it, a bit each.
    labels: u128,
    /// Its interval if these all count 0.
    at_zero: Option<Interval>,
    node: Node,
}

#[derive(Clone, Debug)]
enum Node {
    Nothing,
    Link(Link),
    Star(Box<ReadyPart>),
    Plus(Box<ReadyPart>),
    Optional(Box<ReadyPart>),
    Choice(Vec<ReadyPart>),
    All(Vec<ReadyPart>),
}

/// The bits of all outgoing kinds; those of the incoming ones lie above them.
const OUTGOING: u128 = (1 << MOST_KINDS) - 1;

/// The bit of a label.
pub fn bit(label: Label) -> u128 {
    match label.way {
        Way::Outgoing => 1 << label.kind.0,
        Way::Incoming => 1 << (MOST_KINDS + label.kind.0),
    }
}

impl Ready {
    /// Makes a shape of a template with this many kinds ready.
    pub fn new(definition: &Definition, kinds: u16) -> Ready {
        let part = ReadyPart::new(&definition.part, kinds);
        let barred = match definition.open {
            true => 0,
            false => OUTGOING & !part.labels,
        };
        Ready { part, barred }
    }

    /// Whether the counts fit the shape; `present` has the labels that count something.
    pub fn fits(&self, counts: &Labelled<u16>, present: u128) -> bool {
        present & self.barred == 0
            && self
                .part
                .interval(counts, present)
                .is_some_and(|interval| interval.has(1))
    }
}

impl ReadyPart {
    fn new(part: &Part, kinds: u16) -> ReadyPart {
        let inner = |part: &Part| Box::new(ReadyPart::new(part, kinds));
        let all = |parts: &[Part]| parts.iter().map(|part| ReadyPart::new(part, kinds)).collect();
        let node = match part {
            Part::Nothing => Node::Nothing,
            Part::Link(link) => Node::Link(*link),
            Part::Star(part) => Node::Star(inner(part)),
            Part::Plus(part) => Node::Plus(inner(part)),
            Part::Optional(part) => Node::Optional(inner(part)),
            Part::Choice(parts) => Node::Choice(all(parts)),
            Part::All(parts) => Node::All(all(parts)),
        };
        ReadyPart {
            labels: part.links().iter().fold(0, |bits, link| bits | bit(link.label)),
            at_zero: verdict(part, &Labelled::new(kinds, 0)).interval,
            node,
        }
    }

    /// The interval of repetitions; none if it is empty.
    fn interval(&self, counts: &Labelled<u16>, present: u128) -> Option<Interval> {
        if self.labels & present == 0 {
            return self.at_zero;
        }
        match &self.node {
            Node::Nothing => self.at_zero,
            Node::Link(link) => link_interval(link, u64::from(counts[link.label])),
            Node::Star(part) => part.interval(counts, present).map(|_| Interval::up_from(1)),
            Node::Plus(part) => {
                let interval = part.interval(counts, present)?;
                Some(Interval { low: 1, ..interval })
            }
            Node::Optional(part) => Some(Interval::up_from(0).plus(part.interval(counts, present)?)),
            Node::Choice(parts) => {
                let none = Interval {
                    low: 0,
                    high: Some(0),
                };
                parts
                    .iter()
                    .try_fold(none, |sum, part| Some(sum.plus(part.interval(counts, present)?)))
            }
            Node::All(parts) => parts.iter().try_fold(Interval::up_from(0), |both, part| {
                both.and(part.interval(counts, present)?)
            }),
        }
    }
}
