//! Cards that few links touch: blank ones, and cards with links on one side only. Whether they have a shape is up to
//! the template, so there are also templates in which no card without links has one.

use super::scripts;
use crate::fit::intervals::fits;
use crate::labels::{Label, Labelled, Way};
use crate::numbers::{Kind, Shape};
use crate::random::Random;
use crate::template::{self, Part, Template, MOST_WORDS};
use std::ops::Range;

/// Which links of a card stay.
#[derive(Clone, Copy, PartialEq, Eq, Debug)]
enum Stay {
    /// All of them.
    All,
    /// None: the card is blank.
    None,
    /// Those that lead to it from others.
    Arriving,
    /// Those that start at it and lead to others.
    Leaving,
    /// None, but it gets one to itself.
    Itself,
}

/// Takes links of some cards away: of the first ones, the last ones, some in between, here and there, or of all. There
/// are at most so many links afterwards.
pub fn thin(random: &mut Random, script: &[u16], kinds: u16, most: usize) -> Vec<u16> {
    let cards = script[0];
    let mut stay = vec![Stay::All; usize::from(cards)];
    for card in chosen(random, stay.len()) {
        stay[card] = random.pick(&[
            Stay::None,
            Stay::None,
            Stay::None,
            Stay::Arriving,
            Stay::Leaving,
            Stay::Itself,
        ]);
    }
    let mut links = scripts::links(script);
    links.retain(|link| stays(&stay, *link));
    for card in (0..cards).filter(|card| stay[usize::from(*card)] == Stay::Itself) {
        if links.len() < most {
            links.insert((card, random.word(0, kinds - 1), card));
        }
    }
    scripts::words(cards, &links)
}

/// The cards whose links are taken away.
fn chosen(random: &mut Random, cards: usize) -> Vec<usize> {
    let few = random.between(0, cards.min(4));
    let place = random.below(cards - few + 1);
    let range: Range<usize> = match random.below(8) {
        0 | 1 => 0..few,
        2 | 3 => cards - few..cards,
        4 | 5 => place..place + few,
        6 => return (0..cards).filter(|_| random.chance(1, 3)).collect(),
        _ => 0..cards,
    };
    range.collect()
}

/// Whether a link stays for the sake of both its ends.
fn stays(stay: &[Stay], (from, _, to): (u16, u16, u16)) -> bool {
    let leaves = matches!(stay[usize::from(from)], Stay::All | Stay::Leaving);
    let arrives = matches!(stay[usize::from(to)], Stay::All | Stay::Arriving);
    leaves && arrives
}

/// Puts a link that must be there in the place of each part that takes the empty bag, as long as the words suffice. It
/// runs one of the ways that the template names.
pub fn demand(random: &mut Random, template: &mut Template) {
    let mut room = MOST_WORDS - template::write(template).len();
    let (kinds, shapes) = (template.kinds, template.shapes());
    let no_links = Labelled::new(kinds, 0);
    let links = template.parts().flat_map(Part::links);
    let mut ways: Vec<Way> = links.map(|link| link.label.way).collect();
    ways.push(Way::Outgoing);
    for definition in &mut template.definitions {
        let label = Label {
            way: random.pick(&ways),
            kind: Kind(random.word(0, kinds - 1)),
        };
        let shape = Shape(random.word(0, shapes - 1));
        let wanted = Part::link(label, shape, 1, random.pick(&[None, Some(1), Some(2)]));
        let more = wanted.words().len().saturating_sub(definition.part.words().len());
        if more <= room && fits(definition, &no_links) {
            room -= more;
            definition.part = wanted;
        }
    }
}
