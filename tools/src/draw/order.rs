//! The order of cards and slots within each column: few crossings, short ways, sequences downwards.
//!
//! | here     | what                                                           |
//! |----------|----------------------------------------------------------------|
//! | `items`  | cards and slots as items with numbers, and the lines they draw |
//! | `search` | the search for a good order                                    |

pub mod items;
pub mod search;

use super::fold::Folded;
use super::graph::Graph;
use super::nets::Slot;
use crate::random::Random;
use items::Items;
use search::Search;

/// How often the search starts anew.
const STARTS: usize = 6;

/// The columns with their slots, in a good order. The search may look at so many pairs of lines; large pages use
/// that up before they are at their best.
pub fn order(graph: &Graph, folded: &Folded, budget: usize) -> Vec<Vec<Slot>> {
    let items = Items::new(graph, folded);
    let mut search = Search::new(graph, folded, &items, budget);
    let mut random = Random::new(1);
    let mut best = search.improve(items.columns.clone());
    let mut best_cost = search.cost(&best);
    for _ in 1..STARTS {
        let mut other = best.clone();
        for column in &mut other {
            for _ in 0..column.len() / 2 {
                let (one, two) = (random.below(column.len()), random.below(column.len()));
                column.swap(one, two);
            }
            search.keep_order(column);
        }
        let other = search.improve(other);
        let cost = search.cost(&other);
        if cost < best_cost {
            (best, best_cost) = (other, cost);
        }
    }
    items.sort_twins(&mut best, &|item| search.is_free(item));
    let slots = |column: &Vec<usize>| column.iter().map(|item| items.slots[*item]).collect();
    best.iter().map(slots).collect()
}
