//! Cards and links as numbers, and the kinds that run in sequence. A page has a graph of its own: its cards are
//! numbered anew, and of very many links only some become arrows.

use crate::text::check::Sheet;
use std::collections::BTreeMap;

/// The most links in a row that a kind may have without being a sequence.
const SHORT: usize = 2;
/// As many arrows as this a page may always have.
const FEW_ARROWS: usize = 60;
/// The most arrows of a page for each of its cards.
const ARROWS_A_CARD: usize = 3;

/// One link.
#[derive(Clone, Copy, PartialEq, Eq, PartialOrd, Ord, Debug)]
pub struct Arrow {
    /// The card that has it.
    pub from: usize,
    /// Its kind.
    pub kind: usize,
    /// Its target.
    pub to: usize,
}

/// Cards and links.
#[derive(Clone, Debug)]
pub struct Graph {
    /// The count of cards.
    pub cards: usize,
    /// The links.
    pub arrows: Vec<Arrow>,
    /// For each kind, whether its links form rows, of three or more. Such a kind runs down a column.
    pub sequence: Vec<bool>,
}

impl Graph {
    /// The graph of a whole sheet.
    pub fn new(sheet: &Sheet) -> Graph {
        let arrow = |link: &crate::script::ScriptLink| Arrow {
            from: link.from.index(),
            kind: link.kind.index(),
            to: link.to.index(),
        };
        let arrows: Vec<Arrow> = sheet.setting.script.links.iter().map(arrow).collect();
        let cards = sheet.text.cards.len();
        let sequence = (0..sheet.text.kinds.len())
            .map(|kind| is_sequence(cards, &arrows, kind))
            .collect();
        Graph {
            cards,
            arrows,
            sequence,
        }
    }

    /// The graph of some cards, which get new numbers: their places in the list. It has at most as many arrows as
    /// a page bears.
    pub fn part(&self, cards: &[usize]) -> Graph {
        let mut place = vec![None; self.cards];
        for (number, card) in cards.iter().enumerate() {
            place[*card] = Some(number);
        }
        let inside = |arrow: &Arrow| {
            Some(Arrow {
                from: place[arrow.from]?,
                kind: arrow.kind,
                to: place[arrow.to]?,
            })
        };
        let mut graph = Graph {
            cards: cards.len(),
            arrows: self.arrows.iter().filter_map(inside).collect(),
            sequence: self.sequence.clone(),
        };
        graph.thin_out(FEW_ARROWS.max(ARROWS_A_CARD * cards.len()));
        graph
    }

    /// Keeps at most this many arrows: first sequences, then links of one kind from one card, the fewest first.
    /// They stay or go together.
    pub fn thin_out(&mut self, most: usize) {
        if self.arrows.len() <= most {
            return;
        }
        let mut nets: BTreeMap<(usize, usize), Vec<Arrow>> = BTreeMap::new();
        for arrow in &self.arrows {
            nets.entry((arrow.from, arrow.kind)).or_default().push(*arrow);
        }
        let mut nets: Vec<Vec<Arrow>> = nets.into_values().collect();
        nets.sort_by_key(|net| (!self.sequence[net[0].kind], net.len(), net[0].kind, net[0].from));
        self.arrows.clear();
        for net in nets {
            if self.arrows.len() + net.len() > most {
                break;
            }
            self.arrows.extend(net);
        }
        self.arrows.sort();
    }

    /// Whether a link belongs to a sequence.
    pub fn in_sequence(&self, arrow: &Arrow) -> bool {
        self.sequence[arrow.kind] && arrow.from != arrow.to
    }
}

/// Whether the links of this kind form rows, and more than a few of them follow each other.
fn is_sequence(cards: usize, arrows: &[Arrow], kind: usize) -> bool {
    let links: Vec<&Arrow> = arrows
        .iter()
        .filter(|arrow| arrow.kind == kind && arrow.from != arrow.to)
        .collect();
    let (mut leaving, mut entering) = (vec![0; cards], vec![0; cards]);
    // After n rounds a card's reach is the length of the longest way from it, or n if that is longer.
    let mut reach = vec![0; cards];
    for link in &links {
        leaving[link.from] += 1;
        entering[link.to] += 1;
    }
    for _ in 0..=SHORT {
        let before = reach.clone();
        for link in &links {
            reach[link.from] = reach[link.from].max(before[link.to] + 1);
        }
    }
    let is_row = leaving.iter().chain(&entering).all(|count| *count <= 1);
    is_row && reach.iter().any(|length| *length > SHORT)
}
