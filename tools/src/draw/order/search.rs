//! The search for a good order: sweeps to and fro, and moves of single items.

use super::super::fold::Folded;
use super::super::graph::Graph;
use super::super::nets::Slot;
use super::items::Items;

/// The state of the search.
pub struct Search<'a> {
    items: &'a Items,
    /// Cards that follow each other in a sequence.
    below: Vec<(usize, usize)>,
    /// For each item, its level and its place along a sequence; none if it may stand anywhere.
    rank: Vec<Option<(usize, usize)>>,
    /// Which items are cards of a sequence.
    sequence: Vec<bool>,
    /// Where each item stands, from 0 at the top to 1 at the bottom.
    heights: Vec<f64>,
    /// How many pairs of lines it may still look at.
    budget: usize,
}

impl<'a> Search<'a> {
    /// A search that may look at so many pairs of lines.
    pub fn new(graph: &Graph, folded: &Folded, items: &'a Items, budget: usize) -> Search<'a> {
        let arrows = graph.arrows.iter().filter(|arrow| graph.in_sequence(arrow));
        let below: Vec<(usize, usize)> = arrows.map(|arrow| (arrow.from, arrow.to)).collect();
        let is_folded = folded.band.iter().any(|band| *band > 0);
        let mut sequence = vec![false; items.slots.len()];
        for (from, to) in &below {
            (sequence[*from], sequence[*to]) = (true, true);
        }
        let mut rank = vec![None; items.slots.len()];
        for (place, item) in items.columns.iter().flatten().enumerate() {
            if sequence[*item] || is_folded {
                let along = if sequence[*item] { place } else { 0 };
                rank[*item] = Some((items.level[*item], along));
            }
        }
        Search {
            items,
            below,
            rank,
            sequence,
            heights: vec![0.5; items.slots.len()],
            budget,
        }
    }

    /// Whether an item isn't bound to a place in a sequence.
    pub fn is_free(&self, item: usize) -> bool {
        !self.sequence[item]
    }

    /// Sweeps to and fro, and moves single items as long as that helps.
    pub fn improve(&mut self, mut columns: Vec<Vec<usize>>) -> Vec<Vec<usize>> {
        let mut best = columns.clone();
        let mut best_cost = f64::INFINITY;
        let count = columns.len();
        for sweep in 0..6 {
            self.set_all(&columns);
            for step in 0..count {
                let column = if sweep % 2 == 0 { step } else { count - 1 - step };
                self.sort_by_neighbours(&mut columns, column);
            }
            self.exchange(&mut columns);
            let cost = self.cost(&columns);
            if cost < best_cost {
                best_cost = cost;
                best = columns.clone();
            }
        }
        best
    }

    fn set_all(&mut self, columns: &[Vec<usize>]) {
        for column in columns {
            self.set_heights(column);
        }
    }

    /// Notes where the items of a column stand.
    fn set_heights(&mut self, column: &[usize]) {
        // A slot of a pass takes a quarter of a card's height.
        let slots = &self.items.slots;
        let weight = |item: &usize| {
            if matches!(slots[*item], Slot::Card(_)) {
                1.0
            } else {
                0.25
            }
        };
        let total: f64 = column.iter().map(weight).sum();
        let mut above = 0.0;
        for item in column {
            self.heights[*item] = (above + weight(item) / 2.0) / total;
            above += weight(item);
        }
    }

    /// Sorts a column by the mean height of what its items are tied to.
    fn sort_by_neighbours(&mut self, columns: &mut [Vec<usize>], column: usize) {
        let count = self.heights.len();
        let (mut sums, mut counts) = (vec![0.0; count], vec![0.5; count]);
        for item in &columns[column] {
            sums[*item] = self.heights[*item] * 0.5;
        }
        if column > 0 {
            for (left, right) in &self.items.across[column - 1] {
                sums[*right] += self.heights[*left];
                counts[*right] += 1.0;
            }
        }
        for (left, right) in &self.items.across[column] {
            sums[*left] += self.heights[*right];
            counts[*left] += 1.0;
        }
        let wish = |item: &usize| sums[*item] / counts[*item];
        columns[column].sort_by(|one, two| wish(one).total_cmp(&wish(two)));
        self.keep_order(&mut columns[column]);
        self.set_heights(&columns[column]);
    }

    /// Puts the cards of bands and sequences into their order, on the rows that they have.
    pub fn keep_order(&self, column: &mut [usize]) {
        let rows: Vec<usize> = (0..column.len())
            .filter(|row| self.rank[column[*row]].is_some())
            .collect();
        let mut members: Vec<usize> = rows.iter().map(|row| column[*row]).collect();
        members.sort_by_key(|item| self.rank[*item]);
        for (row, item) in rows.into_iter().zip(members) {
            column[row] = item;
        }
    }

    /// Moves single items to other rows as long as the cost falls.
    fn exchange(&mut self, columns: &mut [Vec<usize>]) {
        for _ in 0..8 {
            let mut better = false;
            for column in 0..columns.len() {
                better |= self.exchange_in(columns, column);
                if self.budget == 0 {
                    return;
                }
            }
            if !better {
                return;
            }
        }
    }

    /// Moves single items of one column.
    fn exchange_in(&mut self, columns: &mut [Vec<usize>], column: usize) -> bool {
        let mut better = false;
        let mut cost = self.cost_at(columns, column);
        for row in 0..columns[column].len() {
            if self.budget == 0 {
                break;
            }
            for goal in 0..columns[column].len() {
                let item = columns[column].remove(row);
                columns[column].insert(goal, item);
                let moved = self.cost_at(columns, column);
                if moved < cost - 1e-9 {
                    cost = moved;
                    better = true;
                } else {
                    let item = columns[column].remove(goal);
                    columns[column].insert(row, item);
                }
            }
        }
        self.set_heights(&columns[column]);
        better
    }

    /// Crossings, lengths, and breaches of sequences and bands, of all columns.
    pub fn cost(&mut self, columns: &[Vec<usize>]) -> f64 {
        self.set_all(columns);
        let channels: f64 = (0..columns.len()).map(|channel| self.channel_cost(channel)).sum();
        let own: f64 = (0..columns.len())
            .map(|column| self.column_cost(&columns[column], column))
            .sum();
        channels + own
    }

    /// The same, of one column and the channels at its sides.
    fn cost_at(&mut self, columns: &[Vec<usize>], column: usize) -> f64 {
        self.set_heights(&columns[column]);
        let first = column.saturating_sub(1);
        let channels: f64 = (first..=column).map(|channel| self.channel_cost(channel)).sum();
        channels + self.column_cost(&columns[column], column)
    }

    fn channel_cost(&mut self, channel: usize) -> f64 {
        let lines: Vec<(f64, f64)> = self.items.across[channel]
            .iter()
            .map(|(left, right)| (self.heights[*left], self.heights[*right]))
            .collect();
        self.budget = self.budget.saturating_sub(lines.len() * lines.len() + 100);
        let mut cost = 0.0;
        for (number, (left, right)) in lines.iter().enumerate() {
            cost += 6.0 * (left - right).abs();
            for (other_left, other_right) in &lines[number + 1..] {
                if (left - other_left) * (right - other_right) < 0.0 {
                    cost += 1.0;
                }
            }
        }
        cost
    }

    fn column_cost(&self, items: &[usize], column: usize) -> f64 {
        let mut cost = 0.0;
        for (one, two) in &self.items.within[column] {
            cost += 4.0 * (self.heights[*one] - self.heights[*two]).abs();
        }
        let slots = &self.items.slots;
        let mut row = vec![None; slots.len()];
        let (mut level, mut rows) = (0, 0);
        for item in items {
            if self.items.level[*item] < level {
                cost += 200.0;
            }
            level = level.max(self.items.level[*item]);
            if matches!(slots[*item], Slot::Card(_)) {
                row[*item] = Some(rows);
                rows += 1;
            }
        }
        for (one, two) in &self.below {
            if let (Some(upper), Some(lower)) = (row[*one], row[*two]) {
                if lower != upper + 1 {
                    cost += 20.0 + 2.0 * (lower as f64 - upper as f64 - 1.0).abs();
                }
            }
        }
        cost
    }
}
