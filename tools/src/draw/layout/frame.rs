//! Columns, nets and boxes: all of the picture that doesn't depend on its size.

use super::super::contents::Content;
use super::super::graph::Arrow;
use super::super::heights::{Box, PASS};
use super::super::measure::PORT;
use super::super::nets::{column_of, drops, nets, Net, Side, Slot};
use super::super::plan::Plan;

/// What stands in which column, and what is tied to what.
#[derive(Clone, Debug)]
pub struct Frame<'a> {
    /// The column of each card.
    pub home: Vec<usize>,
    /// The nets; some may have no targets left.
    pub nets: Vec<Net>,
    /// The links that run straight between two cards of a column.
    pub drops: Vec<Arrow>,
    /// The boxes of each column, from the top.
    pub boxes: Vec<Vec<Box>>,
    /// What each card has to show.
    pub contents: &'a [Content],
    /// The width of all cards.
    pub card_width: f64,
}

impl Frame<'_> {
    /// The frame of a page.
    pub fn new<'a>(plan: &Plan, contents: &'a [Content], card_width: f64) -> Frame<'a> {
        let home = column_of(&plan.slots, plan.cards.len());
        let drops = drops(&plan.graph, &plan.slots);
        let mut nets = nets(&plan.graph, &home);
        for net in &mut nets {
            net.leave_out(&drops);
        }
        let mut frame = Frame {
            home,
            nets,
            drops,
            boxes: Vec::new(),
            contents,
            card_width,
        };
        for column in &plan.slots {
            let boxes = column.iter().map(|slot| frame.new_box(*slot)).collect();
            frame.boxes.push(boxes);
        }
        frame.tie_all();
        frame
    }

    fn new_box(&self, slot: Slot) -> Box {
        let (body, height) = match slot {
            Slot::Card(card) => {
                let ports = [Side::Left, Side::Right].map(|side| self.ports(card, side));
                let content = &self.contents[card];
                let body = content.body().max(PORT * ports[0].max(ports[1]) as f64 + 1.0);
                (body, body + content.below())
            }
            Slot::Pass(_) => (PASS, PASS),
        };
        Box {
            slot,
            height,
            body,
            top: 0.0,
            ties: Vec::new(),
        }
    }

    /// How many ends of arrows a side of a card has.
    fn ports(&self, card: usize, side: Side) -> usize {
        let mut count = 0;
        for net in self.nets.iter().filter(|net| !net.targets.is_empty()) {
            count += usize::from(net.from == card && net.side == side);
            if net.targets.contains(&card) && self.entry_side(net, card) == side {
                count += 1;
            }
        }
        count
    }

    /// The side of a target on which a net enters it.
    pub fn entry_side(&self, net: &Net, target: usize) -> Side {
        match net.side {
            Side::Right if self.home[target] != self.home[net.from] => Side::Left,
            _ => Side::Right,
        }
    }

    /// Ties each box to those at the other ends of its nets.
    fn tie_all(&mut self) {
        let mut pairs: Vec<(Slot, usize, Slot, usize)> = Vec::new();
        for (number, net) in self.nets.iter().enumerate() {
            let passes = net.passes(&self.home);
            let at = |column: usize| {
                if passes.contains(&column) {
                    (Slot::Pass(number), column)
                } else {
                    (Slot::Card(net.from), self.home[net.from])
                }
            };
            let before = |column: usize| match net.side {
                Side::Right => at(column.max(self.home[net.from] + 1) - 1),
                Side::Left => at(column + 1),
            };
            for target in &net.targets {
                let (slot, column) = before(self.home[*target]);
                pairs.push((slot, column, Slot::Card(*target), self.home[*target]));
            }
            for column in passes.clone() {
                let (slot, from) = before(column);
                pairs.push((slot, from, Slot::Pass(number), column));
            }
        }
        for (one, one_column, two, two_column) in pairs {
            let (one_row, two_row) = (self.row(one, one_column), self.row(two, two_column));
            self.boxes[one_column][one_row].ties.push((two_column, two_row));
            self.boxes[two_column][two_row].ties.push((one_column, one_row));
        }
    }

    /// The row of a slot in its column.
    fn row(&self, slot: Slot, column: usize) -> usize {
        let found = self.boxes[column].iter().position(|one| one.slot == slot);
        found.unwrap_or(0)
    }

    /// The box of a slot.
    pub fn find(&self, slot: Slot, column: usize) -> &Box {
        &self.boxes[column][self.row(slot, column)]
    }
}
