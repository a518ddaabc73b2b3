//! Scripts: read from words, or built from links.

use crate::booking::{booking_words, bookings_of, stored_words};
use crate::part::word;
use crate::refusal::{refusals, refused, refused_pair};
use crate::{raw, Booking, Both, Card, Desk, Kind, Largest, Refusal, Shape, Smallest, Template, Typing};
use std::collections::BTreeSet;

/// A link of a script. Links are ordered as in a file: by from, then kind, then to.
#[derive(Clone, Copy, Debug, PartialEq, Eq, PartialOrd, Ord, Hash)]
pub struct Link {
    /// The card where the link starts.
    pub from: Card,
    /// The link's kind.
    pub kind: Kind,
    /// The card where the link ends.
    pub to: Card,
}

/// A script that was read with its template: cards, and links between them. It owns both.
#[derive(Clone, Debug, PartialEq, Eq)]
pub struct Script {
    template: Template,
    words: Vec<u16>,
    cards: u16,
    links: Vec<Link>,
}

impl Script {
    /// Reads a script's words, or tells the first fault: refusals 20 to 25.
    pub fn read(template: &Template, words: Vec<u16>) -> Result<Script, Refusal> {
        let answer = raw::read_script(template.words(), &words);
        refused(answer.number, answer.place)?;
        let link = |w: &[u16]| Link { from: Card(w[0]), kind: Kind(w[1]), to: Card(w[2]) };
        let links = words[2..].chunks_exact(3).map(link).collect();
        Ok(Script { template: template.clone(), words, cards: answer.cards, links })
    }

    /// The template that the script was read with.
    pub fn template(&self) -> &Template {
        &self.template
    }

    /// How many cards there are.
    pub fn cards(&self) -> u16 {
        self.cards
    }

    /// The links, ascending.
    pub fn links(&self) -> &[Link] {
        &self.links
    }

    /// The words that were read.
    pub fn words(&self) -> &[u16] {
        &self.words
    }

    /// The links that start at a card, ascending, not those that arrive there; none if there is no such card. They are
    /// found in the links that were read, so that no file is read again; `raw::links_of_card` answers the same.
    pub fn links_of(&self, card: Card) -> &[Link] {
        let start = self.links.partition_point(|link| link.from < card);
        let end = self.links.partition_point(|link| link.from <= card);
        &self.links[start..end]
    }

    /// The largest typing: the one that has every pair of every sound typing.
    pub fn largest(&self) -> Largest {
        let mut grid = self.grid();
        let answer = raw::largest(self.template.words(), &self.words, &mut grid);
        debug_assert_eq!(answer.number, 0);
        Largest { typing: self.typing(grid), rounds: answer.rounds, struck: answer.struck, bare: answer.bare }
    }

    /// The smallest sound typing that has the pairs of card and shape that the desk books. Refusals, for bookings of
    /// either desk: 31 to 33, 65 where a desk books a pair a second time; and 50 where there is no such typing.
    pub fn smallest(&self, bookings: &[Booking], desk: Desk) -> Result<Smallest, Refusal> {
        let mut grid = self.grid();
        let list = booking_words(bookings);
        let answer = raw::smallest(self.template.words(), &self.words, &list, desk.number(), &mut grid);
        refused_pair(answer.number, answer.place, answer.card, answer.shape)?;
        Ok(Smallest { typing: self.typing(grid), pairs: answer.pairs })
    }

    /// Both typings in one call; the largest is the same for either desk. Where only the desk's bookings are not met,
    /// the largest is there and the smallest is refusal 50. Refusals: 31 to 33, 65.
    pub fn both(&self, bookings: &[Booking], desk: Desk) -> Result<Both, Refusal> {
        let (mut small, mut large) = (self.grid(), self.grid());
        let (template, list) = (self.template.words(), booking_words(bookings));
        let answer = raw::both_typings(template, &self.words, &list, desk.number(), &mut small, &mut large);
        let smallest = match refused_pair(answer.number, answer.place, answer.card, answer.shape) {
            Ok(()) => Ok(Smallest { typing: self.typing(small), pairs: answer.pairs }),
            Err(refusal) if refusal.number == refusals::NOT_MET => Err(refusal),
            Err(refusal) => return Err(refusal),
        };
        let typing = self.typing(large);
        let largest = Largest { typing, rounds: answer.rounds, struck: answer.struck, bare: answer.bare };
        Ok(Both { largest, smallest })
    }

    /// Whether a grid, perhaps of another program, is a sound typing that has the pairs of card and shape that the
    /// desk books: a byte for each pair, 1 where card n has shape t, at place n × shapes + t, else 0. Refusals: 31 to
    /// 33, 65, 40, 61 to 63; 62 names the pair that is not met.
    pub fn judge(&self, bookings: &[Booking], desk: Desk, grid: &[u8]) -> Result<(), Refusal> {
        let list = booking_words(bookings);
        let answer = raw::judge(self.template.words(), &self.words, &list, desk.number(), grid);
        refused_pair(answer.number, answer.place, answer.card, answer.shape)
    }

    /// Judges a typing by the bytes of its grid. One of another script is judged as if it were this script's.
    pub fn judge_typing(&self, bookings: &[Booking], desk: Desk, typing: &Typing) -> Result<(), Refusal> {
        self.judge(bookings, desk, typing.grid())
    }

    /// The first booking of each pair, in the list's order, as the radio's. This is for lists that were stored without
    /// desks: pairs of card and shape, which may stand there several times. Refusals: 31 to 33.
    pub fn tidy(&self, stored: &[(Card, Shape)]) -> Result<Vec<Booking>, Refusal> {
        let mut tidied = vec![0; 1 + 3 * stored.len()];
        let answer =
            raw::tidy_bookings(self.template.words(), &self.words, &stored_words(stored), &mut tidied);
        refused(answer.number, answer.place)?;
        Ok(bookings_of(&tidied[..answer.written]))
    }

    /// A grid of the script's size.
    fn grid(&self) -> Vec<u8> {
        vec![0; usize::from(self.cards) * usize::from(self.template.shapes())]
    }

    fn typing(&self, grid: Vec<u8>) -> Typing {
        Typing::new(grid, self.cards, self.template.shapes())
    }
}

/// A script that is being built: cards and links, in any order.
#[derive(Clone, Debug, Default)]
pub struct ScriptBuilder {
    cards: usize,
    links: BTreeSet<Link>,
}

impl ScriptBuilder {
    /// No cards and no links.
    pub fn new() -> ScriptBuilder {
        ScriptBuilder::default()
    }

    /// So many cards, numbered from 0, and no links.
    pub fn with_cards(cards: u16) -> ScriptBuilder {
        ScriptBuilder { cards: usize::from(cards), links: BTreeSet::new() }
    }

    /// Adds a card and returns its number.
    pub fn card(&mut self) -> Card {
        self.cards += 1;
        Card(word(self.cards - 1))
    }

    /// Adds a link. A script is a set of links: one that is added twice is there once.
    pub fn link(&mut self, from: Card, kind: Kind, to: Card) {
        self.links.insert(Link { from, kind, to });
    }

    /// The script's words, links ascending.
    pub fn words(&self) -> Vec<u16> {
        let mut words = vec![word(self.cards), word(self.links.len())];
        words.extend(self.links.iter().flat_map(|link| [link.from.0, link.kind.0, link.to.0]));
        words
    }

    /// The script, read with its template, or its first fault.
    pub fn read(&self, template: &Template) -> Result<Script, Refusal> {
        Script::read(template, self.words())
    }
}
