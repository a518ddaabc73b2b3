//! Whether an arrow runs through a card or what stands below it, and whether a text stands over a text.

use super::graph::Arrow;
use super::layout::{Layout, Rect};
use super::svg::Words;

/// How far an arrow may reach into a card, for the sake of rounding.
const ROUNDING: f64 = 0.001;

/// Each arrow that runs through a card, with that card.
pub fn arrows_through_cards(layout: &Layout) -> Vec<(Arrow, usize)> {
    let mut found = Vec::new();
    for route in &layout.routes {
        for (card, block) in layout.blocks.iter().enumerate() {
            let mut places = vec![block.body];
            places.extend(block.chips.iter().map(|(_, place)| *place));
            places.extend(block.lines.iter().map(|(_, place)| *place));
            let crosses = |two: &[(f64, f64)]| places.iter().any(|place| cuts(two[0], two[1], place));
            if route.points.windows(2).any(crosses) {
                found.push((route.arrow, card));
            }
        }
    }
    found
}

/// Whether a level or upright line has a point inside a rectangle.
fn cuts(from: (f64, f64), to: (f64, f64), place: &Rect) -> bool {
    let overlap = |one: f64, two: f64, start: f64, length: f64| {
        one.max(two) > start + ROUNDING && one.min(two) < start + length - ROUNDING
    };
    overlap(from.0, to.0, place.x, place.width) && overlap(from.1, to.1, place.y, place.height)
}

/// Each two texts of a page that overlap.
pub fn texts_over_texts(texts: &[Words]) -> Vec<(&Words, &Words)> {
    let mut sorted: Vec<&Words> = texts.iter().collect();
    sorted.sort_by(|one, two| one.place.y.total_cmp(&two.place.y));
    let mut found = Vec::new();
    for (number, one) in sorted.iter().enumerate() {
        let bottom = one.place.y + one.place.height;
        let below = sorted[number + 1..]
            .iter()
            .take_while(|two| two.place.y < bottom - ROUNDING);
        found.extend(
            below
                .filter(|two| overlap(&one.place, &two.place))
                .map(|two| (*one, *two)),
        );
    }
    found
}

/// Whether two rectangles have points in common.
fn overlap(one: &Rect, two: &Rect) -> bool {
    let common = |one: (f64, f64), two: (f64, f64)| {
        one.0 < two.0 + two.1 - ROUNDING && two.0 < one.0 + one.1 - ROUNDING
    };
    common((one.x, one.width), (two.x, two.width)) && common((one.y, one.height), (two.y, two.height))
}
