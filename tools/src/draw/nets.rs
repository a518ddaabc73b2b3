//! Links of one kind from one card leave it together, on the side where their targets are, and part in the
//! channels. Where such a net passes a column it needs a slot.

use super::graph::{Arrow, Graph};
use std::collections::BTreeMap;

/// A side of a card.
#[derive(Clone, Copy, PartialEq, Eq, PartialOrd, Ord, Debug)]
pub enum Side {
    /// The left side.
    Left,
    /// The right side.
    Right,
}

/// Links of one kind from one card that leave it on one side.
#[derive(Clone, PartialEq, Eq, Debug)]
pub struct Net {
    /// The card.
    pub from: usize,
    /// The kind.
    pub kind: usize,
    /// The side on which they leave.
    pub side: Side,
    /// Their targets.
    pub targets: Vec<usize>,
}

/// What stands in a column.
#[derive(Clone, Copy, PartialEq, Eq, Debug)]
pub enum Slot {
    /// A card.
    Card(usize),
    /// The way of a net through the column.
    Pass(usize),
}

/// The nets of all links.
pub fn nets(graph: &Graph, column_of: &[usize]) -> Vec<Net> {
    let mut nets: BTreeMap<(usize, usize, Side), Vec<usize>> = BTreeMap::new();
    for arrow in &graph.arrows {
        let side = if column_of[arrow.to] < column_of[arrow.from] {
            Side::Left
        } else {
            Side::Right
        };
        nets.entry((arrow.from, arrow.kind, side))
            .or_default()
            .push(arrow.to);
    }
    nets.into_iter()
        .map(|((from, kind, side), targets)| Net {
            from,
            kind,
            side,
            targets,
        })
        .collect()
}

impl Net {
    /// Leaves out the links that are drawn as drops.
    pub fn leave_out(&mut self, drops: &[Arrow]) {
        let (from, kind) = (self.from, self.kind);
        self.targets.retain(|target| {
            !drops.contains(&Arrow {
                from,
                kind,
                to: *target,
            })
        });
    }

    /// The columns that the net passes on its way.
    pub fn passes(&self, column_of: &[usize]) -> std::ops::Range<usize> {
        let home = column_of[self.from];
        let columns = self.targets.iter().map(|target| column_of[*target]);
        match self.side {
            Side::Right => home + 1..columns.max().unwrap_or(home).max(home + 1),
            Side::Left => columns.min().unwrap_or(home) + 1..home,
        }
    }
}

/// The column of each card.
pub fn column_of(columns: &[Vec<Slot>], cards: usize) -> Vec<usize> {
    let mut column_of = vec![0; cards];
    for (number, column) in columns.iter().enumerate() {
        for slot in column {
            if let Slot::Card(card) = slot {
                column_of[*card] = number;
            }
        }
    }
    column_of
}

/// The links of sequences that run straight down or up, between cards that stand next to each other; at most one
/// between any two.
pub fn drops(graph: &Graph, columns: &[Vec<Slot>]) -> Vec<Arrow> {
    let mut drops: Vec<Arrow> = Vec::new();
    for column in columns {
        let cards: Vec<usize> = column
            .iter()
            .filter_map(|slot| match slot {
                Slot::Card(card) => Some(*card),
                Slot::Pass(_) => None,
            })
            .collect();
        for two in cards.windows(2) {
            let joins = |arrow: &&Arrow| {
                graph.in_sequence(arrow) && two.contains(&arrow.from) && two.contains(&arrow.to)
            };
            drops.extend(graph.arrows.iter().find(joins));
        }
    }
    drops
}
