//! Random sheets on which many cards are alike: their links are of the same kinds, as many of each, and lead to other
//! cards. Others are nearly alike: the same kinds in other numbers, one more at the end, another first one, or other
//! kinds with the same mark. Each shape is made for one of the cards and doesn't take some of those that are nearly
//! like it; where it names links that arrive, not even all that are alike. `kinds` has the kinds of a card, `fixed`
//! sheets that are the same in every run.

pub mod fixed;
pub mod kinds;

use super::flat::counts;
use super::flat::shapes::Maker;
use super::scripts::{self, Links};
use super::{booked, Case, Scale, FULL, SMALL, TINY};
use crate::random::Random;
use crate::sheet::Files;
use crate::template::{Definition, Part, Template, MOST_KINDS};
use kinds::Kinds;
use std::collections::BTreeSet;

/// A tiny sheet with more of everything.
const FEW: Scale = Scale {
    name: "few",
    kinds: 9,
    shapes: 6,
    cards: 12,
    links: 60,
    ..TINY
};

/// One random input.
pub fn case(random: &mut Random) -> Case {
    let scale = scale(random);
    Case {
        name: format!("alike-{}", scale.name),
        bytes: alike(random, scale).bytes(),
    }
}

/// A scale, most often a small one.
pub fn scale(random: &mut Random) -> Scale {
    match random.below(16) {
        0..=2 => SMALL,
        3 => FULL,
        _ => FEW,
    }
}

/// A sheet that isn't larger than the scale, apart from its count of kinds.
pub fn alike(random: &mut Random, scale: Scale) -> Files {
    let few_kinds = random.word(3, scale.kinds);
    let kinds = random.pick(&[few_kinds, MOST_KINDS]);
    let cards = random.word(4, scale.cards);
    let links = links(random, cards, kinds, scale.links);
    // Many kinds in a shape leave words for few shapes.
    let shapes = random.word(2, scale.shapes.min(8));
    let pool: BTreeSet<u16> = links.iter().map(|(_, kind, _)| *kind).collect();
    let mut maker = Maker {
        models: counts(cards, kinds, &links),
        pool: pool.into_iter().collect(),
        shapes,
        names_arriving: random.chance(1, 2),
        asks_for_any: random.chance(1, 2),
        random,
    };
    let mut definitions: Vec<Definition> = (1..shapes)
        .map(|number| match number % 3 {
            0 => maker.definition(),
            _ => maker.grouped(),
        })
        .collect();
    definitions.push(Definition::open(Part::Nothing));
    let template = Template { kinds, definitions };
    booked(random, &template, scripts::words(cards, &links), scale)
}

/// Links of the cards of a few families, not more than so many. Each card has the kinds of a family's first member,
/// those of another member, or none.
fn links(random: &mut Random, cards: u16, kinds: u16, most: usize) -> Links {
    let number = random.between(1, 3);
    let families: Vec<Vec<Kinds>> = (0..number).map(|_| family(random, kinds)).collect();
    let mut links = Links::new();
    for card in 0..cards {
        let family = &families[random.below(families.len())];
        let member = match random.below(16) {
            0 => continue,
            1..=8 => &family[0],
            _ => &family[random.below(family.len())],
        };
        if links.len() + member.len() <= most {
            start(random, &mut links, (card, cards), member);
        }
    }
    links
}

/// Some kinds, and others that are nearly the same.
fn family(random: &mut Random, number: u16) -> Vec<Kinds> {
    let first = kinds::any(random, number);
    let more = kinds::one_more(random, &first, number);
    let others = [
        kinds::in_other_numbers(random, &first),
        kinds::other_first(random, &first),
        kinds::same_mark(random, &first, number),
        kinds::short_with_mark(random, &first, number),
        Some(more),
    ];
    [first].into_iter().chain(others.into_iter().flatten()).collect()
}

/// Lets links of these kinds start at a card, of so many cards. Those of one kind lead to cards that follow each
/// other.
fn start(random: &mut Random, links: &mut Links, (card, cards): (u16, u16), kinds: &[u16]) {
    for run in kinds.chunk_by(|one, next| one == next) {
        let first = random.word(0, cards - 1);
        let targets = (0..cards).cycle().skip(first.into());
        links.extend(run.iter().zip(targets).map(|(kind, to)| (card, *kind, to)));
    }
}
