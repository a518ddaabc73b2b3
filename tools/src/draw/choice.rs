//! Which cards are drawn: all of them, those that a booking touches, or those around one card.

use super::graph::Graph;
use crate::numbers::Card;
use crate::text::check::Sheet;
use crate::typing::closure::closure;
use crate::typing::Pair;

/// Which cards are drawn.
#[derive(Clone, Copy, PartialEq, Eq, Default, Debug)]
pub enum Choice {
    /// All cards.
    #[default]
    All,
    /// Those that some desk books, and those that have to have a shape because of that.
    Booked,
    /// One card, and those that so many links at most lie between, whichever way they lead.
    Around(usize, usize),
}

impl Choice {
    /// The choice that the words of a command ask for.
    pub fn read(sheet: &Sheet, words: &[&str]) -> Result<Choice, String> {
        let steps = |word: &str| {
            let steps = word.parse().ok().filter(|steps| (1..=1024).contains(steps));
            steps.ok_or_else(|| format!("the steps must be a number from 1 to 1024, not {word}"))
        };
        match words {
            [] => Ok(Choice::All),
            ["--booked"] => Ok(Choice::Booked),
            ["--around", card] => Ok(Choice::Around(find(sheet, card)?, 1)),
            ["--around", card, "--steps", number] => Ok(Choice::Around(find(sheet, card)?, steps(number)?)),
            _ => Err(format!(
                "a drawing can be of --booked cards or --around CARD, with --steps N after it, not {}",
                words.join(" ")
            )),
        }
    }

    /// The cards that it chooses, ascending.
    pub fn cards(&self, sheet: &Sheet, whole: &Graph) -> Vec<usize> {
        let chosen = match *self {
            Choice::All => vec![true; whole.cards],
            Choice::Booked => booked(sheet),
            Choice::Around(card, steps) => around(whole, card, steps),
        };
        (0..whole.cards).filter(|card| chosen[*card]).collect()
    }

    /// What is drawn, in words; none if it is everything.
    pub fn words(&self, sheet: &Sheet) -> Option<String> {
        match *self {
            Choice::All => None,
            Choice::Booked => Some("those that a booking touches".to_string()),
            Choice::Around(card, steps) => {
                let title = sheet.text.card_title(card);
                let links = if steps == 1 {
                    "a link".to_string()
                } else {
                    format!("{steps} links")
                };
                Some(format!(
                    "“{title}” ({card}) and those at most {links} away from it"
                ))
            }
        }
    }
}

/// The card of this name or number.
fn find(sheet: &Sheet, word: &str) -> Result<usize, String> {
    let cards = &sheet.text.cards;
    let named = cards.iter().position(|(name, _)| name.text == word);
    let numbered = || word.parse().ok().filter(|number| *number < cards.len());
    named
        .or_else(numbered)
        .ok_or_else(|| format!("the sheet has no card {word}"))
}

fn booked(sheet: &Sheet) -> Vec<bool> {
    let pairs: Vec<Pair> = sheet.booked.iter().map(|(_, pair)| *pair).collect();
    let grid = closure(&sheet.setting, &pairs);
    let shapes = usize::from(sheet.typings.shapes);
    let has_any = |card: Card| {
        let start = card.index() * shapes;
        grid[start..start + shapes].contains(&1)
    };
    sheet.setting.cards().map(has_any).collect()
}

fn around(whole: &Graph, card: usize, steps: usize) -> Vec<bool> {
    let mut near = vec![false; whole.cards];
    near[card] = true;
    for _ in 0..steps.min(whole.cards) {
        let before = near.clone();
        for arrow in &whole.arrows {
            near[arrow.from] |= before[arrow.to];
            near[arrow.to] |= before[arrow.from];
        }
    }
    near
}
