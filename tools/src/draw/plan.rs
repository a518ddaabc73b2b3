//! Which cards stand on which page, and in which order in their columns. A page whose letters would be too small is
//! made into two; if it has few cards, its arrows become lines first.

use super::columns::columns;
use super::contents::{contents, Content};
use super::fold::ROOM;
use super::graph::{Arrow, Graph};
use super::layout::layout;
use super::legend::Legend;
use super::lists::Whole;
use super::measure::card_width;
use super::nets::Slot;
use super::order::order;
use super::page::LINE;
use super::share::{cut, line_up};
use std::collections::VecDeque;

/// The most cards of a page.
pub const MOST_CARDS: usize = 160;
/// The smallest scale of a picture: titles have letters of 3.6 mm times this. With several pages there is more room.
pub const LEAST_SCALE: (f64, f64) = (0.55, 0.58);
/// Once there are several pages, this many cards of a page are enough.
const ENOUGH_CARDS: usize = 72;
/// A page with as few cards as this is made into two only if it isn't legible even without arrows.
const FEW_CARDS: usize = 16;
/// The most lines below a card, and how many it may always have.
const MOST_LINES: usize = 200;
const FEW_LINES: usize = 24;
/// A legend with more rows takes room from the picture.
const USUAL_ROWS: usize = 5;
/// The least width of cards; that of cards with lines below them.
const LEAST_WIDTH: (f64, f64) = (32.0, 46.0);
/// How many pairs of lines the search for an order may look at, for all pages together, and at least for each.
const BUDGET: (usize, usize) = (400_000_000, 12_000_000);

/// One page.
#[derive(Clone, Debug)]
pub struct Plan {
    /// Its cards, ascending.
    pub cards: Vec<usize>,
    /// Its links that are drawn as arrows; cards are numbered by their places in `cards`.
    pub graph: Graph,
    /// The most lines below a card.
    pub most_lines: usize,
    /// What stands in each column, from the top.
    pub slots: Vec<Vec<Slot>>,
}

/// The pages for some cards of a sheet, and the width of all cards. Notes which card stands on which page.
pub fn plans(whole: &mut Whole, cards: &[usize]) -> (Vec<Plan>, f64) {
    let line = line_up(&whole.graph, cards);
    if line.len() <= MOST_CARDS {
        whole.set_pages([&line[..]].into_iter());
        let width = card_width(whole.sheet, LEAST_WIDTH.0);
        let plan = Plan::new(whole, &line, width, BUDGET.0);
        if plan.scale(whole, width) >= LEAST_SCALE.0 {
            return (vec![plan], width);
        }
    }
    let pieces = line.len().div_ceil(ENOUGH_CARDS);
    let width = card_width(whole.sheet, LEAST_WIDTH.1);
    let budget = (BUDGET.0 / pieces).max(BUDGET.1);
    let mut waiting: VecDeque<Vec<usize>> = cut(&whole.graph, &line, pieces).into();
    let mut plans: Vec<Plan> = Vec::new();
    whole.set_pages(waiting.iter().map(Vec::as_slice));
    while let Some(piece) = waiting.pop_front() {
        let mut plan = Plan::new(whole, &piece, width, budget);
        if piece.len() <= FEW_CARDS {
            plan.thin_out(whole, width, budget);
        }
        if piece.len() > 1 && !plan.is_legible(whole, width) {
            for half in cut(&whole.graph, &piece, 2).into_iter().rev() {
                waiting.push_front(half);
            }
        } else {
            plan.shorten(whole, width);
            plans.push(plan);
        }
    }
    whole.set_pages(plans.iter().map(|plan| plan.cards.as_slice()));
    (plans, width)
}

impl Plan {
    fn new(whole: &Whole, cards: &[usize], width: f64, budget: usize) -> Plan {
        let mut cards = cards.to_vec();
        cards.sort_unstable();
        let mut plan = Plan {
            graph: whole.graph.part(&cards),
            cards,
            most_lines: MOST_LINES,
            slots: Vec::new(),
        };
        plan.arrange(whole, width, budget);
        plan
    }

    /// Puts the cards into columns.
    fn arrange(&mut self, whole: &Whole, width: f64, budget: usize) {
        let (contents, _) = contents(whole, self, width);
        let tall: Vec<f64> = contents.iter().map(Content::tall).collect();
        self.slots = order(&self.graph, &columns(&self.graph, &tall, width), budget);
    }

    /// The scale at which the page has room for its picture.
    fn scale(&self, whole: &Whole, width: f64) -> f64 {
        let (contents, _) = contents(whole, self, width);
        let legend = Legend::new(whole.sheet, self, &contents, &[]);
        let more_rows = LINE * legend.rows.saturating_sub(USUAL_ROWS) as f64;
        let room = (ROOM.0, ROOM.1 - more_rows - whole.answers.below());
        let layout = layout(whole.sheet, self, &contents, width, room.0 / room.1);
        (room.0 / layout.width).min(room.1 / layout.height)
    }

    /// Its arrows, with cards by their numbers in the sheet.
    pub fn arrows(&self) -> impl Iterator<Item = Arrow> + '_ {
        self.graph.arrows.iter().map(|arrow| Arrow {
            from: self.cards[arrow.from],
            kind: arrow.kind,
            to: self.cards[arrow.to],
        })
    }

    /// Whether the letters of one of several pages are large enough.
    fn is_legible(&self, whole: &Whole, width: f64) -> bool {
        self.scale(whole, width) >= LEAST_SCALE.1
    }

    /// Makes arrows into lines as long as the page isn't legible.
    fn thin_out(&mut self, whole: &Whole, width: f64, budget: usize) {
        while !self.graph.arrows.is_empty() && !self.is_legible(whole, width) {
            let half = self.graph.arrows.len() / 2;
            self.graph.thin_out(half);
            self.arrange(whole, width, budget);
        }
    }

    /// Leaves out lines as long as the page isn't legible.
    fn shorten(&mut self, whole: &Whole, width: f64) {
        while self.most_lines > FEW_LINES && !self.is_legible(whole, width) {
            self.most_lines = self.most_lines * 3 / 4;
        }
    }
}
