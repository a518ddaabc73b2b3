//! Random scripts. A derived script gives each card a wish, a shape, and then links that make the wish come true
//! if the wishes at their far ends do. A loose script has links between any cards.

use super::parts::{draw, Drawn};
use super::Scale;
use crate::labels::Way;
use crate::numbers::Shape;
use crate::random::Random;
use crate::template::Template;
use std::collections::{BTreeMap, BTreeSet};

/// Links in the order of a script: from, kind, to.
pub type Links = BTreeSet<(u16, u16, u16)>;

/// The words of a script with these cards and links.
pub fn words(cards: u16, links: &Links) -> Vec<u16> {
    let mut words = vec![cards, links.len() as u16];
    words.extend(links.iter().flat_map(|(from, kind, to)| [*from, *kind, *to]));
    words
}

/// The links of a script that is well-formed.
pub fn links(words: &[u16]) -> Links {
    let links = words[2..].chunks(3);
    links.map(|link| (link[0], link[1], link[2])).collect()
}

/// A script derived from the shapes; in half of the cases a few links are changed afterwards.
pub fn derived(random: &mut Random, template: &Template, scale: Scale) -> Vec<u16> {
    let cards = card_count(random, scale.cards);
    let generosity = random.pick(&[1, 2, 2, 4, scale.links / 100 + 2]);
    let wishes: Vec<Shape> = (0..cards)
        .map(|_| Shape(random.word(0, template.shapes() - 1)))
        .collect();
    let mut holders = vec![Vec::new(); template.definitions.len()];
    for (wish, card) in wishes.iter().zip(0..) {
        holders[wish.index()].push(card);
    }
    let bags: Vec<Drawn> = wishes
        .iter()
        .map(|wish| some_bag(random, template, *wish, generosity, &holders))
        .collect();
    let mut granted = Granted::default();
    for way in Way::BOTH {
        for (bag, card) in bags.iter().zip(0..) {
            granted.grant(random, (card, way), bag, &holders, scale.links);
        }
    }
    let mut links = granted.links;
    if cards > 0 && random.chance(1, 2) {
        disturb(random, &mut links, cards, template.kinds, scale.links);
    }
    words(cards, &links)
}

/// A bag of the shape for which there are far cards enough, rather not an empty one.
fn some_bag(
    random: &mut Random,
    template: &Template,
    shape: Shape,
    generosity: usize,
    holders: &[Vec<u16>],
) -> Drawn {
    for _ in 0..8 {
        let mut bag = Drawn::new();
        draw(random, template.part(shape), generosity, &mut bag);
        let far_cards_suffice = bag
            .iter()
            .all(|((_, far), number)| *number <= holders[far.index()].len());
        if far_cards_suffice && (!bag.is_empty() || random.chance(1, 3)) {
            return bag;
        }
    }
    Drawn::new()
}

/// The links that were granted, and how many of each kind arrive at each card.
#[derive(Default)]
struct Granted {
    links: Links,
    arrived: BTreeMap<(u16, u16), usize>,
}

impl Granted {
    /// Links between the card and as many holders of each shape as the bag says of this way, as long as there are at
    /// most so many links. Of incoming ones, those that have arrived already are granted.
    fn grant(
        &mut self,
        random: &mut Random,
        (card, way): (u16, Way),
        bag: &Drawn,
        holders: &[Vec<u16>],
        most: usize,
    ) {
        for ((label, far), number) in bag.iter().filter(|((label, _), _)| label.way == way) {
            let kind = label.kind.0;
            let there = match way {
                Way::Outgoing => 0,
                Way::Incoming => self.arrived.get(&(kind, card)).copied().unwrap_or(0),
            };
            let missing = number.saturating_sub(there);
            if self.links.len() + missing > most {
                return;
            }
            let far_cards = &holders[far.index()];
            let start = random.below(far_cards.len());
            for step in 0..missing {
                let far = far_cards[(start + step) % far_cards.len()];
                match way {
                    Way::Outgoing => self.insert(card, kind, far),
                    Way::Incoming => self.insert(far, kind, card),
                }
            }
        }
    }

    fn insert(&mut self, from: u16, kind: u16, to: u16) {
        if self.links.insert((from, kind, to)) {
            *self.arrived.entry((kind, to)).or_insert(0) += 1;
        }
    }
}

/// Takes a few links away and puts a few others in.
pub fn disturb(random: &mut Random, links: &mut Links, cards: u16, kinds: u16, most: usize) {
    for _ in 0..random.between(1, 3) {
        if random.chance(1, 2) && !links.is_empty() {
            let gone = links.iter().nth(random.below(links.len())).copied();
            links.retain(|link| Some(*link) != gone);
        } else if links.len() < most {
            links.insert(any_link(random, cards, kinds));
        }
    }
}

/// A script with links between any cards.
pub fn loose(random: &mut Random, template: &Template, scale: Scale) -> Vec<u16> {
    let cards = card_count(random, scale.cards);
    let mut links = Links::new();
    if cards > 0 {
        let tries = if random.chance(1, 2) {
            random.between(0, usize::from(cards))
        } else {
            random.between(0, scale.links)
        };
        for _ in 0..tries {
            links.insert(any_link(random, cards, template.kinds));
        }
    }
    words(cards, &links)
}

/// Any link; those from a card to itself come more often than others.
fn any_link(random: &mut Random, cards: u16, kinds: u16) -> (u16, u16, u16) {
    let (from, other) = (random.word(0, cards - 1), random.word(0, cards - 1));
    let to = random.pick(&[from, other, other, other, other, other, other, other]);
    (from, random.word(0, kinds - 1), to)
}

/// A count of cards; 0 and the limit come more often than others.
fn card_count(random: &mut Random, limit: u16) -> u16 {
    match random.below(30) {
        0 => 0,
        1..=3 => limit,
        _ => random.word(1, limit),
    }
}
