//! *Read a script* (refusals 20 to 25, after the template's) and *Links of a card*.

use crate::labels::{Label, Labelled, Way};
use crate::numbers::{Card, Kind};
use crate::refusal::Refusal;
use crate::template::{self, Template};

/// The most cards.
pub const MOST_CARDS: u16 = 1024;
/// The most links.
pub const MOST_LINKS: u16 = 8192;

/// A script that was read.
#[derive(Clone, PartialEq, Eq, Debug)]
pub struct Script {
    /// The count of cards, N.
    pub cards: u16,
    /// The links, strictly ascending; their number is M.
    pub links: Vec<ScriptLink>,
    /// For each card, where the ends of links at it start; then where the last ones end.
    starts: Vec<usize>,
    /// The ends of all links, card by card.
    ends: Vec<End>,
}

/// One link of the script. The order is that of comparison: from, kind, to.
#[derive(Clone, Copy, PartialEq, Eq, PartialOrd, Ord, Debug)]
pub struct ScriptLink {
    /// The card that has the link.
    pub from: Card,
    /// Its kind.
    pub kind: Kind,
    /// Its target.
    pub to: Card,
}

/// An end of a link, seen from the card there. A link from a card to itself has both its ends at that card.
#[derive(Clone, Copy, PartialEq, Eq, PartialOrd, Ord, Debug)]
pub struct End {
    /// The link's kind, and whether it starts or arrives here.
    pub label: Label,
    /// The card at its other end.
    pub far: Card,
}

impl ScriptLink {
    /// One of its two ends, with the card there.
    fn end(&self, way: Way) -> (Card, End) {
        let (here, far) = match way {
            Way::Outgoing => (self.from, self.to),
            Way::Incoming => (self.to, self.from),
        };
        let label = Label { way, kind: self.kind };
        (here, End { label, far })
    }
}

impl Script {
    /// The script of these links, which ascend.
    fn new(cards: u16, links: Vec<ScriptLink>) -> Script {
        let of_way = |way| links.iter().map(move |link| link.end(way));
        let ends: Vec<(Card, End)> = Way::BOTH.into_iter().flat_map(of_way).collect();
        let mut starts = vec![0; usize::from(cards) + 1];
        for (card, _) in &ends {
            starts[card.index() + 1] += 1;
        }
        for card in 1..starts.len() {
            starts[card] += starts[card - 1];
        }
        let mut next = starts.clone();
        let mut by_card: Vec<End> = ends.iter().map(|(_, end)| *end).collect();
        for (card, end) in ends {
            by_card[next[card.index()]] = end;
            next[card.index()] += 1;
        }
        Script {
            cards,
            links,
            starts,
            ends: by_card,
        }
    }

    /// The ends of links at one card: first of those that start there, then of those that arrive.
    pub fn ends_of(&self, card: Card) -> &[End] {
        &self.ends[self.starts[card.index()]..self.starts[card.index() + 1]]
    }

    /// How many ends of links with each label there are at a card, of the labels of so many kinds.
    pub fn counts_of(&self, card: Card, kinds: u16) -> Labelled<u16> {
        let mut counts = Labelled::new(kinds, 0);
        for end in self.ends_of(card) {
            counts[end.label] += 1;
        }
        counts
    }

    /// For each card, whether it is blank: no link starts at it and none leads to it. One to itself touches it too.
    pub fn blank(&self) -> Vec<bool> {
        let mut blank = vec![true; usize::from(self.cards)];
        for link in &self.links {
            blank[link.from.index()] = false;
            blank[link.to.index()] = false;
        }
        blank
    }
}

/// Reads a script with its template, or tells the first fault.
pub fn read(template_words: &[u16], script_words: &[u16]) -> Result<Script, Refusal> {
    read_under(&template::read(template_words)?, script_words)
}

/// Reads a script under a template that is well-formed.
pub fn read_under(template: &Template, words: &[u16]) -> Result<Script, Refusal> {
    if words.len() < 2 {
        return Err(Refusal::at(20, 0));
    }
    let (cards, link_count) = (words[0], words[1]);
    if cards > MOST_CARDS {
        return Err(Refusal::at(21, 0));
    }
    if link_count > MOST_LINKS {
        return Err(Refusal::at(22, 1));
    }
    if words.len() != 2 + 3 * usize::from(link_count) {
        return Err(Refusal::at(20, 0));
    }
    let mut links: Vec<ScriptLink> = Vec::new();
    for place in (2..words.len()).step_by(3) {
        let link = ScriptLink {
            from: Card(words[place]),
            kind: Kind(words[place + 1]),
            to: Card(words[place + 2]),
        };
        if link.from.0 >= cards {
            return Err(Refusal::at(23, place));
        }
        if link.kind.0 >= template.kinds {
            return Err(Refusal::at(24, place + 1));
        }
        if link.to.0 >= cards {
            return Err(Refusal::at(23, place + 2));
        }
        if links.last().is_some_and(|before| link <= *before) {
            return Err(Refusal::at(25, place));
        }
        links.push(link);
    }
    Ok(Script::new(cards, links))
}

/// The links of one card, as the part of the script's words that holds them. Empty if the template or the
/// script is refused, or if the card isn't below N or has no links.
pub fn links_of_card<'script>(
    template_words: &[u16],
    script_words: &'script [u16],
    card: u16,
) -> &'script [u16] {
    if read(template_words, script_words).is_err() || card >= script_words[0] {
        return &[];
    }
    let is_of_card = |place: &usize| script_words[*place] == card;
    let mut places = (2..script_words.len()).step_by(3);
    let start = match places.find(is_of_card) {
        Some(start) => start,
        None => return &[],
    };
    let end = (start..script_words.len())
        .step_by(3)
        .find(|place| !is_of_card(place));
    &script_words[start..end.unwrap_or(script_words.len())]
}
