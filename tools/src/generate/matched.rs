//! Sheets whose shapes are made to fit their links. Each card has a shape in mind, and each kind joins cards of one
//! shape to cards of one shape. So shapes can name both ends of all links, with bounds that the links keep, and all
//! cards have their shapes; unless a few links are changed afterwards.

use super::scripts::{self, Links};
use super::{booked, openings, parts, sparse, Scale};
use crate::labels::{Label, Labelled, Way};
use crate::numbers::{Kind, Shape};
use crate::random::Random;
use crate::sheet::Files;
use crate::template::{Definition, Part, Template};

/// A sheet that isn't larger than the scale.
pub fn matched(random: &mut Random, scale: Scale) -> Files {
    let plan = Plan::new(random, scale);
    let mut links = plan.links(random, scale.links);
    let ranges = plan.ranges(&links);
    let (share, shapes) = (openings::share(random), (0..plan.shapes).map(Shape));
    let define = |shape| {
        let open = random.chance(share, 4);
        let part = plan.part(random, (shape, open), &ranges);
        Definition { open, part }
    };
    let template = Template {
        kinds: plan.joins.len() as u16,
        definitions: shapes.map(define).collect(),
    };
    if random.chance(1, 2) {
        scripts::disturb(random, &mut links, plan.cards(), template.kinds, scale.links);
    }
    let mut script = scripts::words(plan.cards(), &links);
    if random.chance(1, 6) {
        script = sparse::thin(random, &script, template.kinds, scale.links);
    }
    if random.chance(1, 2) {
        script = openings::stray(random, &template, script, scale.links);
    }
    booked(random, &template, script, scale)
}

/// What each card and each kind is meant for.
struct Plan {
    shapes: u16,
    /// The shape of each card.
    wishes: Vec<Shape>,
    /// For each kind, the shape at the start of its links and that at their target.
    joins: Vec<[Shape; 2]>,
}

impl Plan {
    fn new(random: &mut Random, scale: Scale) -> Plan {
        let shapes = random.word(1, scale.shapes);
        let (cards, kinds) = (random.word(1, scale.cards), random.word(1, scale.kinds));
        let mut any_shape = || Shape(random.word(0, shapes - 1));
        Plan {
            shapes,
            wishes: (0..cards).map(|_| any_shape()).collect(),
            joins: (0..kinds).map(|_| [any_shape(), any_shape()]).collect(),
        }
    }

    fn cards(&self) -> u16 {
        self.wishes.len() as u16
    }

    /// The cards that are meant to have a shape.
    fn holders(&self, shape: Shape) -> Vec<u16> {
        let cards = (0..).zip(&self.wishes);
        cards
            .filter(|(_, wish)| **wish == shape)
            .map(|(card, _)| card)
            .collect()
    }

    /// A few links of each kind, between the cards that it joins; not more than so many in all.
    fn links(&self, random: &mut Random, most: usize) -> Links {
        let mut links = Links::new();
        for ([start, target], kind) in self.joins.iter().zip(0..) {
            let (starts, targets) = (self.holders(*start), self.holders(*target));
            let (fewest, most_each) = random.pick(&[(0, 1), (1, 1), (0, 2), (1, 3)]);
            for from in starts {
                let count = random.between(fewest, most_each);
                if !targets.is_empty() && links.len() + count <= most {
                    links.extend((0..count).map(|_| (from, kind, random.pick(&targets))));
                }
            }
        }
        links
    }

    /// For each shape, for each label, the lowest and the highest count of the cards that are meant to have it.
    fn ranges(&self, links: &Links) -> Vec<Labelled<[u16; 2]>> {
        let kinds = self.joins.len() as u16;
        let mut counts = vec![Labelled::new(kinds, 0_u16); self.wishes.len()];
        for (from, kind, to) in links {
            let kind = Kind(*kind);
            counts[usize::from(*from)][Label::outgoing(kind)] += 1;
            counts[usize::from(*to)][Label::incoming(kind)] += 1;
        }
        let mut ranges = vec![Labelled::new(kinds, [u16::MAX, 0]); usize::from(self.shapes)];
        for (wish, counts) in self.wishes.iter().zip(counts) {
            for (label, count) in counts.iter() {
                let [low, high] = &mut ranges[wish.index()][label];
                (*low, *high) = ((*low).min(*count), (*high).max(*count));
            }
        }
        ranges
    }

    /// A part that all cards keep to that are meant to have the shape. It names most kinds that arrive at them, and all
    /// that start at them; if the shape is open, only some of these.
    fn part(&self, random: &mut Random, (shape, open): (Shape, bool), ranges: &[Labelled<[u16; 2]>]) -> Part {
        let mut links = Vec::new();
        for (label, [low, high]) in ranges[shape.index()].iter() {
            let [start, target] = self.joins[label.kind.index()];
            let (here, far) = match label.way {
                Way::Outgoing => (start, target),
                Way::Incoming => (target, start),
            };
            let is_named = match label.way {
                Way::Outgoing => !open || random.chance(1, 2),
                Way::Incoming => random.chance(3, 4),
            };
            if here == shape && is_named {
                links.push(link_part(random, label, far, [*low.min(high), *high]));
            }
        }
        random.shuffle(&mut links);
        let part = Part::all_of(links);
        match random.chance(1, 4) {
            true => parts::wrapped(random, part),
            false => part,
        }
    }
}

/// A part of one label that takes these counts and all in between, and perhaps others.
fn link_part(random: &mut Random, label: Label, far: Shape, [low, high]: [u16; 2]) -> Part {
    let link = |low, high| Part::link(label, far, low, high);
    match random.below(8) {
        0 => Part::Star(Box::new(link(1, Some(1)))),
        1 if low > 0 => Part::Plus(Box::new(link(1, Some(2)))),
        2 if high > 0 => Part::Optional(Box::new(link(1, Some(high)))),
        3 => link(0, None),
        4 => link(low, None),
        _ => link(low, Some(high)),
    }
}
