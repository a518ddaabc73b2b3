//! When a pair is met under a typing, and what is said about typings with it.

use super::{Pair, Setting};
use crate::fit::bags::{self, Bag, Bags};
use crate::fit::intervals;
use crate::labels::Label;
use crate::numbers::{Card, Shape};
use crate::script::End;
use crate::template::Named;

/// What a card needs of another to have a shape: the label of the link between them, and the pair at its far end.
pub type Need = (Label, Pair);

/// What a card needs under a shape that names these: for each end of a link there whose label is named, the shape
/// that it is named with, at the far card.
pub fn needs<'a>(setting: &'a Setting, named: &'a Named, card: Card) -> impl Iterator<Item = Need> + 'a {
    let ends = setting.script.ends_of(card).iter();
    ends.filter_map(|end| Some((end.label, (end.far, named[end.label]?))))
}

/// Whether the pair is met under the grid. A label stands at most once in a shape, so there is only one shape to
/// choose for each link: the one that its label is named with. Of the other links, those at which the shape looks
/// aren't there if the counts fit, and the rest is ignored.
pub fn met(setting: &Setting, grid: &[u8], pair: Pair) -> bool {
    let (card, shape) = pair;
    let (definition, kinds) = (setting.template.definition(shape), setting.template.kinds);
    let named = definition.part.named(kinds);
    let all_are_there = needs(setting, &named, card).all(|(_, far)| grid[setting.place(far)] == 1);
    all_are_there && intervals::fits(definition, &setting.script.counts_of(card, kinds))
}

/// The same, taken at its word: every way to choose shapes of the far cards is tried, and the bag that comes out is
/// looked up among the bags of the shape's part. Only for a few links with small counts.
pub fn met_by_choices(setting: &Setting, grid: &[u8], pair: Pair) -> bool {
    let (card, shape) = pair;
    let counts = setting.script.counts_of(card, setting.template.kinds);
    let allowed = bags::bags(setting.template.part(shape), &counts);
    some_choice_is_allowed(setting, grid, &chosen_for(setting, pair), &Bag::new(), &allowed)
}

/// The ends of links for which a shape of the far card is chosen: those at which the shape looks. A link from the card
/// to itself can be there twice.
pub fn chosen_for(setting: &Setting, (card, shape): Pair) -> Vec<End> {
    let definition = setting.template.definition(shape);
    let looked_at = definition.looked_at(setting.template.kinds);
    let ends = setting.script.ends_of(card).iter();
    ends.filter(|end| looked_at[end.label]).copied().collect()
}

/// Whether shapes for the remaining ends can be chosen so that the bag becomes an allowed one.
fn some_choice_is_allowed(setting: &Setting, grid: &[u8], ends: &[End], bag: &Bag, allowed: &Bags) -> bool {
    let Some((end, rest)) = ends.split_first() else {
        return allowed.contains(bag);
    };
    (0..setting.template.shapes()).map(Shape).any(|shape| {
        let mut longer = bag.clone();
        *longer.entry((end.label, shape)).or_insert(0) += 1;
        let far_card_has_shape = grid[setting.place((end.far, shape))] == 1;
        far_card_has_shape && some_choice_is_allowed(setting, grid, rest, &longer, allowed)
    })
}

/// Whether each pair that the grid has is met under it.
pub fn sound(setting: &Setting, grid: &[u8]) -> bool {
    setting
        .pairs()
        .all(|pair| grid[setting.place(pair)] == 0 || met(setting, grid, pair))
}

/// Whether the grid has the pair of each booking.
pub fn holds(setting: &Setting, grid: &[u8], booked: &[Pair]) -> bool {
    booked.iter().all(|pair| grid[setting.place(*pair)] == 1)
}

/// Whether `upper` has every pair of `lower`.
pub fn lies_below(lower: &[u8], upper: &[u8]) -> bool {
    lower.len() == upper.len() && lower.iter().zip(upper).all(|(low, up)| *low == 0 || *up == 1)
}
