//! Random sheets about counting the links of a card. Each shape is made for one of the cards, so about as many pairs
//! fit by their counts as don't. Most links ask for the last shape, which every card has. `shapes` has the shapes,
//! most of which are flat.

pub mod shapes;

use super::scripts::{self, Links};
use super::{booked, Case, Scale, FULL, SMALL, TINY};
use crate::labels::{Label, Labelled};
use crate::numbers::Kind;
use crate::random::Random;
use crate::sheet::Files;
use crate::template::{Definition, Part, Template, MOST_KINDS};
use shapes::Maker;
use std::collections::BTreeMap;

/// A tiny sheet with more of everything.
const FEW: Scale = Scale {
    name: "few",
    kinds: 9,
    shapes: 7,
    cards: 8,
    links: 40,
    ..TINY
};

/// How many links of which kinds start at a card.
type Runs = BTreeMap<u16, u16>;

/// One random input.
pub fn case(random: &mut Random) -> Case {
    let scale = scale(random);
    Case {
        name: format!("flat-{}", scale.name),
        bytes: flat(random, scale).bytes(),
    }
}

/// A scale, most often a small one.
pub fn scale(random: &mut Random) -> Scale {
    match random.below(12) {
        0 => SMALL,
        1 => FULL,
        _ => FEW,
    }
}

/// A sheet that isn't larger than the scale, apart from its count of kinds.
pub fn flat(random: &mut Random, scale: Scale) -> Files {
    let few_kinds = random.word(1, scale.kinds);
    let kinds = random.pick(&[few_kinds, MOST_KINDS]);
    // Many kinds in a shape leave words for few shapes.
    let (most_kinds, most_shapes) = match scale == FULL && random.chance(1, 4) {
        true => (usize::from(MOST_KINDS), 5),
        false => (6, scale.shapes),
    };
    let pool = pool(random, kinds, most_kinds);
    let cards = random.word(1, scale.cards);
    let links = links(random, cards, &pool, scale.links);
    let shapes = random.word(2, most_shapes);
    let mut maker = Maker {
        models: counts(cards, kinds, &links),
        pool,
        shapes,
        names_arriving: random.chance(1, 2),
        asks_for_any: random.chance(1, 4),
        random,
    };
    let mut definitions: Vec<Definition> = (1..shapes).map(|_| maker.definition()).collect();
    definitions.push(Definition::open(Part::Nothing));
    let template = Template { kinds, definitions };
    booked(random, &template, scripts::words(cards, &links), scale)
}

/// The kinds that links have and shapes name, ascending; the first and the last of all are often among them.
fn pool(random: &mut Random, kinds: u16, most: usize) -> Vec<u16> {
    let mut pool: Vec<u16> = (0..kinds).collect();
    random.shuffle(&mut pool);
    pool.truncate(random.between(2, most));
    if random.chance(1, 2) {
        pool.extend([0, kinds - 1]);
    }
    pool.sort();
    pool.dedup();
    pool
}

/// Links of these kinds, not more than so many. In some scripts the last card alone has links of one of the kinds.
fn links(random: &mut Random, cards: u16, pool: &[u16], most: usize) -> Links {
    let mut all = runs(random, cards, pool);
    if random.chance(1, 6) {
        let kind = random.pick(pool);
        for runs in &mut all {
            runs.remove(&kind);
        }
        if let Some(last) = all.last_mut() {
            last.insert(kind, length(random, cards));
        }
    }
    let mut links = Links::new();
    for (runs, card) in all.iter().zip(0..) {
        for (kind, length) in runs {
            let start = random.word(0, cards - 1);
            if links.len() + usize::from(*length) <= most {
                links.extend((0..*length).map(|step| (card, *kind, (start + step) % cards)));
            }
        }
    }
    links
}

/// The runs of each card. Some have none, and many are those of another card, or nearly so.
fn runs(random: &mut Random, cards: u16, pool: &[u16]) -> Vec<Runs> {
    let mut all: Vec<Runs> = Vec::new();
    for card in 0..usize::from(cards) {
        let mut runs = match random.below(8) {
            0 => Runs::new(),
            1..=4 if card > 0 => all[random.below(card)].clone(),
            _ => {
                let is_had = |_: &&u16| random.chance(1, 2);
                let kinds: Vec<&u16> = pool.iter().filter(is_had).collect();
                kinds.iter().map(|kind| (**kind, length(random, cards))).collect()
            }
        };
        let (kind, length) = (random.pick(pool), length(random, cards));
        match random.below(8) {
            0 => runs.remove(&kind),
            1 => runs.insert(kind, length),
            _ => None,
        };
        all.push(runs);
    }
    all
}

/// How many links of a kind start at a card: few, or up to one to each card.
fn length(random: &mut Random, cards: u16) -> u16 {
    let few = random.word(1, 4).min(cards);
    match random.chance(1, 4 + usize::from(cards) / 16) {
        true => random.word(few, cards),
        false => few,
    }
}

/// The counts of each card.
pub fn counts(cards: u16, kinds: u16, links: &Links) -> Vec<Labelled<u16>> {
    let mut counts = vec![Labelled::new(kinds, 0); usize::from(cards)];
    for (from, kind, to) in links {
        counts[usize::from(*from)][Label::outgoing(Kind(*kind))] += 1;
        counts[usize::from(*to)][Label::incoming(Kind(*kind))] += 1;
    }
    counts
}
