//! Random parts and templates, and random bags of a part.

use super::{openings, Scale};
use crate::labels::{Label, Way};
use crate::numbers::{Kind, Shape};
use crate::random::Random;
use crate::template::{self, Definition, Part, Template};
use crate::template::{MOST_COUNT, MOST_DEPTH, MOST_GROUP, MOST_WORDS};
use std::collections::BTreeMap;

/// A low, and a high or no limit.
pub type Bounds = (u16, Option<u16>);

/// Makes random parts.
pub struct PartMaker<'a> {
    /// The source of numbers.
    pub random: &'a mut Random,
    /// The count of shapes that links may ask for.
    pub shapes: u16,
    /// Makes the low and the high of a link.
    pub bounds: fn(&mut Random) -> Bounds,
}

impl PartMaker<'_> {
    /// A part that names some of these labels, each at most once, and isn't deeper than `depth`.
    pub fn part(&mut self, labels: &[Label], depth: usize) -> Part {
        if depth == 1 {
            return self.leaf(labels);
        }
        // How many of 12 parts are a star, plus or optional, and how many a group; the others are leaves.
        let (wraps, groups) = match labels.len() {
            0 => (2, 1),
            1 => (5, 1),
            _ => (4, 8),
        };
        let roll = self.random.below(12);
        if roll < wraps {
            self.wrap(labels, depth)
        } else if roll < wraps + groups {
            self.group(labels, depth)
        } else {
            self.leaf(labels)
        }
    }

    /// A link with the first label, or nothing.
    fn leaf(&mut self, labels: &[Label]) -> Part {
        let Some(label) = labels.first() else {
            return Part::Nothing;
        };
        let (low, high) = (self.bounds)(self.random);
        let shape = Shape(self.random.word(0, self.shapes - 1));
        Part::link(*label, shape, low, high)
    }

    fn wrap(&mut self, labels: &[Label], depth: usize) -> Part {
        let inner = self.part(labels, depth - 1);
        wrapped(self.random, inner)
    }

    /// A choice or an all; each label goes to one of its parts.
    fn group(&mut self, labels: &[Label], depth: usize) -> Part {
        let most = (labels.len() + 1).clamp(2, usize::from(MOST_GROUP));
        let count = self.random.between(2, most);
        let mut shares = vec![Vec::new(); count];
        for label in labels {
            shares[self.random.below(count)].push(*label);
        }
        let parts = shares.iter().map(|share| self.part(share, depth - 1)).collect();
        if self.random.chance(2, 5) {
            Part::Choice(parts)
        } else {
            Part::All(parts)
        }
    }
}

/// Links of a kind that start at a card.
pub fn outgoing(kind: u16, shape: u16, low: u16, high: Option<u16>) -> Part {
    Part::link(Label::outgoing(Kind(kind)), Shape(shape), low, high)
}

/// Links of a kind that arrive at a card.
pub fn incoming(kind: u16, shape: u16, low: u16, high: Option<u16>) -> Part {
    Part::link(Label::incoming(Kind(kind)), Shape(shape), low, high)
}

/// Any links of these kinds that start at a card, all to cards of one shape.
pub fn any_outgoing(kinds: u16, shape: u16) -> Part {
    Part::all_of((0..kinds).map(|kind| outgoing(kind, shape, 0, None)).collect())
}

/// The part within a star, a plus or an optional.
pub fn wrapped(random: &mut Random, part: Part) -> Part {
    match random.below(3) {
        0 => Part::Star(Box::new(part)),
        1 => Part::Plus(Box::new(part)),
        _ => Part::Optional(Box::new(part)),
    }
}

/// A low and a high for small counts.
pub fn small_bounds(random: &mut Random) -> Bounds {
    let low = random.word(0, 3);
    match random.below(8) {
        0 => (0, Some(0)),
        1 => (low, None),
        2 => (random.word(0, 1), None),
        3 | 4 => (1, Some(1)),
        _ => (low, Some(random.word(low, 4))),
    }
}

/// A low and a high of any size, mostly small ones.
pub fn any_bounds(random: &mut Random) -> Bounds {
    match random.below(24) {
        0..=5 => (1, Some(1)),
        6..=8 => (0, Some(1)),
        9..=11 => (0, None),
        12..=13 => (1, None),
        14 => (0, Some(0)),
        15 => (0, Some(MOST_COUNT)),
        16 => (random.word(0, 3), None),
        17 => (2, Some(random.word(2, 9))),
        18 => {
            let low = random.word(0, MOST_COUNT);
            (low, Some(random.word(low, MOST_COUNT)))
        }
        19 => (MOST_COUNT, random.pick(&[None, Some(MOST_COUNT)])),
        _ => small_bounds(random),
    }
}

/// A low and a high that most counts keep to.
fn easy_bounds(random: &mut Random) -> Bounds {
    match random.below(8) {
        0..=4 => (0, None),
        5 => (1, None),
        6 => (0, Some(random.word(1, 3))),
        _ => small_bounds(random),
    }
}

/// A random template that isn't larger than the scale. Most name links both ways, some only one way; in many some
/// shapes are open, in some all of them.
pub fn template(random: &mut Random, scale: Scale) -> Template {
    let kinds = up_to(random, scale.kinds);
    let shapes = up_to(random, scale.shapes);
    let wide = random.chance(1, 4);
    let ways: &[Way] = match random.below(12) {
        0..=2 => &[Way::Outgoing],
        3 => &[Way::Incoming],
        _ => &Way::BOTH,
    };
    let labels: Vec<Label> = Label::all(kinds)
        .filter(|label| ways.contains(&label.way))
        .collect();
    let mut parts = Vec::new();
    let mut room = MOST_WORDS - 2;
    for later in (0..usize::from(shapes)).rev() {
        // Each later shape needs its count and a word at least.
        let spare = room - 2 * later - 1;
        let mut part = shape_part(random, scale, &labels, shapes, wide);
        if part.words().len() > spare {
            part = Part::Nothing;
        }
        room -= 1 + part.words().len();
        parts.push(part);
    }
    let mut template = Template::closed(kinds, parts);
    if ways.len() == 2 && random.chance(3, 4) {
        mirror(random, &mut template);
    }
    openings::open(random, &mut template);
    template
}

/// Lets shapes mirror each other, as long as the words suffice: where one names links with a shape, that shape names
/// most of the same links, seen from their other end, with the first. So links that one shape asks for can be those
/// that the other wants.
fn mirror(random: &mut Random, template: &mut Template) {
    let mut named = template.named();
    let mut mirrored = vec![Vec::new(); template.definitions.len()];
    for (shape, part) in (0..).map(Shape).zip(template.parts()) {
        for link in part.links() {
            let (far, label) = (link.shape.index(), link.label.turned());
            let has_room = mirrored[far].len() + 1 < usize::from(MOST_GROUP);
            if has_room && named[far][label].is_none() && random.chance(3, 4) {
                named[far][label] = Some(shape);
                let (low, high) = easy_bounds(random);
                mirrored[far].push(Part::link(label, shape, low, high));
            }
        }
    }
    let mut room = MOST_WORDS - template::write(template).len();
    for (Definition { part, .. }, links) in template.definitions.iter_mut().zip(mirrored) {
        let whole = Part::All([vec![part.clone()], links].concat());
        let more = whole.words().len() - part.words().len();
        if whole.links().len() > part.links().len() && more <= room && whole.depth() <= MOST_DEPTH {
            room -= more;
            *part = whole;
        }
    }
}

/// The part of one shape; sometimes as deep as can be. A wide template's shapes name many labels.
fn shape_part(random: &mut Random, scale: Scale, labels: &[Label], shapes: u16, wide: bool) -> Part {
    let mut used = labels.to_vec();
    random.shuffle(&mut used);
    let most = used.len().min(scale.labels_in_shape);
    let most = if wide || random.chance(1, 6) {
        most
    } else {
        most.min(6)
    };
    let fewest = usize::from(random.chance(5, 6));
    used.truncate(random.between(fewest, most));
    let depth = random.between(1 + usize::from(used.len() > 1), MOST_DEPTH);
    let mut part = PartMaker {
        random,
        shapes,
        bounds: any_bounds,
    }
    .part(&used, depth);
    if random.chance(1, 20) {
        while part.depth() < MOST_DEPTH {
            part = wrapped(random, part);
        }
    }
    part
}

/// A number from 1 to the limit, the limit itself more often than others.
fn up_to(random: &mut Random, limit: u16) -> u16 {
    if random.chance(1, 5) {
        limit
    } else {
        random.word(1, limit)
    }
}

/// A part of exactly this many words, at least 1, that has the empty bag alone.
pub fn filler(words: usize) -> Part {
    match words {
        0 | 1 => Part::Nothing,
        2 | 3 => Part::Star(Box::new(filler(words - 1))),
        _ => {
            let count = (words - 2).min(usize::from(MOST_GROUP));
            let share = (words - 2) / count;
            let over = (words - 2) % count;
            Part::All(
                (0..count)
                    .map(|index| filler(share + usize::from(index < over)))
                    .collect(),
            )
        }
    }
}

/// How many copies of each (label, shape) a random bag has.
pub type Drawn = BTreeMap<(Label, Shape), usize>;

/// Adds a random bag of the part: links get at most `generosity` copies over their low.
pub fn draw(random: &mut Random, part: &Part, generosity: usize, bag: &mut Drawn) {
    match part {
        Part::Nothing => {}
        Part::Link(link) => {
            let low = usize::from(link.low);
            let most = link
                .high
                .map_or(low + generosity, |high| usize::from(high).min(low + generosity));
            let number = random.between(low, most);
            if number > 0 {
                *bag.entry((link.label, link.shape)).or_insert(0) += number;
            }
        }
        Part::Star(part) => repeat(random, part, generosity, bag, 0),
        Part::Plus(part) => repeat(random, part, generosity, bag, 1),
        Part::Optional(part) => {
            if random.chance(1, 2) {
                draw(random, part, generosity, bag);
            }
        }
        Part::Choice(parts) => {
            let chosen = random.below(parts.len());
            draw(random, &parts[chosen], generosity, bag);
        }
        Part::All(parts) => {
            for part in parts {
                draw(random, part, generosity, bag);
            }
        }
    }
}

/// Draws from `fewest` to 2 bags.
fn repeat(random: &mut Random, part: &Part, generosity: usize, bag: &mut Drawn, fewest: usize) {
    for _ in 0..random.between(fewest, 2) {
        draw(random, part, generosity, bag);
    }
}
