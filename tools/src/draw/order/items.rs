//! Cards and slots as items with numbers, and the lines that nets draw between them.

use super::super::fold::Folded;
use super::super::graph::Graph;
use super::super::nets::{column_of, nets, Net, Side, Slot};
use std::collections::BTreeMap;

/// A line between two items.
pub type Tie = (usize, usize);

/// The items of all columns. A card has its own number, a slot one above all cards.
#[derive(Clone, Debug)]
pub struct Items {
    /// What each item is.
    pub slots: Vec<Slot>,
    /// The items of each column.
    pub columns: Vec<Vec<usize>>,
    /// For each channel, the lines that nets draw in it.
    pub across: Vec<Vec<Tie>>,
    /// For each column, the lines between its own cards.
    pub within: Vec<Vec<Tie>>,
    /// For each item, its level: twice its band, or one more for a slot on the way to a lower band.
    pub level: Vec<usize>,
}

impl Items {
    /// The items of these columns of cards.
    pub fn new(graph: &Graph, folded: &Folded) -> Items {
        let columns = &folded.columns;
        let cards = |column: &Vec<usize>| column.iter().map(|card| Slot::Card(*card)).collect();
        let home = column_of(&columns.iter().map(cards).collect::<Vec<_>>(), graph.cards);
        let mut items = Items {
            slots: (0..graph.cards).map(Slot::Card).collect(),
            columns: columns.to_vec(),
            across: vec![Vec::new(); columns.len()],
            within: vec![Vec::new(); columns.len()],
            level: folded.band.iter().map(|band| 2 * band).collect(),
        };
        for (number, net) in nets(graph, &home).iter().enumerate() {
            let mut passes = BTreeMap::new();
            for column in net.passes(&home) {
                passes.insert(column, items.slots.len());
                items.columns[column].push(items.slots.len());
                items.slots.push(Slot::Pass(number));
                let bands = net.targets.iter().map(|target| folded.band[*target]);
                let goes_down = bands.min().is_some_and(|band| band > folded.band[net.from]);
                items
                    .level
                    .push(2 * folded.band[net.from] + usize::from(goes_down));
            }
            items.tie(net, &home, &passes);
        }
        items
    }

    /// The lines of a net, which passes some columns.
    fn tie(&mut self, net: &Net, home: &[usize], passes: &BTreeMap<usize, usize>) {
        let at = |column: usize| passes.get(&column).copied().unwrap_or(net.from);
        for target in &net.targets {
            let column = home[*target];
            match net.side {
                Side::Right if column == home[net.from] => self.within[column].push((net.from, *target)),
                Side::Right => self.across[column - 1].push((at(column - 1), *target)),
                Side::Left => self.across[column].push((*target, at(column + 1))),
            }
        }
        for (column, item) in passes {
            match net.side {
                Side::Right => self.across[column - 1].push((at(column - 1), *item)),
                Side::Left => self.across[*column].push((*item, at(column + 1))),
            }
        }
    }
}

impl Items {
    /// Puts cards that are tied to the same items into the order of their numbers, on the rows that they have.
    pub fn sort_twins(&self, columns: &mut [Vec<usize>], free: &dyn Fn(usize) -> bool) {
        let mut ties: Vec<Vec<(bool, usize)>> = vec![Vec::new(); self.slots.len()];
        for (one, two) in self.across.iter().chain(&self.within).flatten() {
            ties[*one].push((true, *two));
            ties[*two].push((false, *one));
        }
        for column in columns {
            let mut twins: BTreeMap<(usize, &[(bool, usize)]), Vec<usize>> = BTreeMap::new();
            for (row, item) in column.iter().enumerate() {
                if matches!(self.slots[*item], Slot::Card(_)) && free(*item) {
                    twins
                        .entry((self.level[*item], &ties[*item]))
                        .or_default()
                        .push(row);
                }
            }
            for rows in twins.into_values() {
                let mut members: Vec<usize> = rows.iter().map(|row| column[*row]).collect();
                members.sort_unstable();
                for (row, item) in rows.into_iter().zip(members) {
                    column[row] = item;
                }
            }
        }
    }
}
