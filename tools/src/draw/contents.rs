//! What each card of a page has to show: its title, its chips, and the links that aren't arrows.

use super::heights::GAP;
use super::lists::{lists, Line, Lists, Whole};
use super::measure::{chips, height_below, room_below, title_height, title_lines, Chip};
use super::plan::Plan;

/// What a card has to show.
#[derive(Clone, PartialEq, Debug)]
pub struct Content {
    /// Its title, in lines.
    pub title: Vec<String>,
    /// Whether it is a blank card with no shape.
    pub blank: bool,
    /// Its chips.
    pub chips: Vec<Chip>,
    /// The lines below the chips.
    pub lines: Vec<Line>,
}

impl Content {
    /// The least height of the card's body.
    pub fn body(&self) -> f64 {
        title_height(self.title.len())
    }

    /// The height of what stands below the body.
    pub fn below(&self) -> f64 {
        height_below(&self.chips, &self.lines)
    }

    /// The height that the card takes in a column, with the gap to the next.
    pub fn tall(&self) -> f64 {
        self.body() + self.below() + GAP
    }
}

/// What the cards of a page have to show, and a tally of their lists.
pub fn contents(whole: &Whole, plan: &Plan, card_width: f64) -> (Vec<Content>, Lists) {
    let room = (room_below(card_width), plan.most_lines);
    let mut lists = lists(whole, plan, room);
    let lines = std::mem::take(&mut lists.lines);
    let content = |(card, lines): (&usize, Vec<Line>)| Content {
        title: title_lines(whole.sheet, *card, card_width),
        blank: whole.sheet.blank_and_shapeless(*card),
        chips: chips(whole.sheet, *card, card_width),
        lines,
    };
    (plan.cards.iter().zip(lines).map(content).collect(), lists)
}
