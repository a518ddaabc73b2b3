//! Where arrows leave and enter cards. Each end has a cell of its own at the side of its card; within it, it is
//! put where it is level with the other end if that can be, and always clear of the other arrows of the channel.

use super::nets::Side;

/// The distance that arrows of different nets keep, first the one wished for.
const CLEAR: [f64; 4] = [1.7, 1.2, 0.7, 0.0];
/// The distance that an end keeps from the ends of its cell.
const MARGIN: f64 = 0.8;
/// The same for an end with a label.
const LABEL_MARGIN: f64 = 1.5;
/// The step in which an end is moved.
const STEP: f64 = 0.2;

/// What an end of an arrow is.
#[derive(Clone, Copy, PartialEq, Eq, Debug)]
pub enum EndKind {
    /// A card that the net leaves.
    Exit(usize),
    /// A card that the net enters.
    Entry(usize),
    /// The way through a column, at the side nearer to the net's start.
    PassIn,
    /// The way through a column, at the side nearer to the targets.
    PassOut,
}

/// One end of a wire.
#[derive(Clone, Copy, PartialEq, Debug)]
pub struct End {
    /// What it is.
    pub kind: EndKind,
    /// The side of the channel on which it lies.
    pub side: Side,
    /// The lowest and highest place that it may have.
    pub cell: (f64, f64),
    /// Its place.
    pub y: f64,
}

/// The part of a net that lies in one channel. The first end is the one that it comes from.
#[derive(Clone, PartialEq, Debug)]
pub struct Wire {
    /// The net.
    pub net: usize,
    /// Its ends.
    pub ends: Vec<End>,
}

/// Shares out the side of a card, from `top`, among its ends: their cells. Those with a label keep further apart.
pub fn cells(top: f64, height: f64, labelled: &[bool]) -> Vec<(f64, f64)> {
    let each = height / labelled.len() as f64;
    labelled
        .iter()
        .enumerate()
        .map(|(number, labelled)| {
            let start = top + each * number as f64;
            let margin = if *labelled { LABEL_MARGIN } else { MARGIN };
            (start + margin, start + each - margin)
        })
        .collect()
}

/// Puts all ends of a channel into their cells.
pub fn place(wires: &mut [Wire]) {
    let mut used: Vec<(f64, usize)> = Vec::new();
    for wire in wires.iter() {
        for end in wire.ends.iter().filter(|end| is_pass(end)) {
            used.push((end.y, wire.net));
        }
    }
    // Where nets come from first, then where they go to.
    for wire in wires.iter_mut() {
        if !is_pass(&wire.ends[0]) {
            let wish = level_with_targets(wire);
            let end = &mut wire.ends[0];
            end.y = free(&used, wire.net, end.cell, wish);
            used.push((end.y, wire.net));
        }
    }
    for wire in wires.iter_mut() {
        let start = wire.ends[0].y;
        for end in wire.ends[1..].iter_mut().filter(|end| !is_pass(end)) {
            end.y = free(&used, wire.net, end.cell, start.clamp(end.cell.0, end.cell.1));
            used.push((end.y, wire.net));
        }
    }
}

fn is_pass(end: &End) -> bool {
    matches!(end.kind, EndKind::PassIn | EndKind::PassOut)
}

/// The place in the first end's cell that is level with most of a target's cell, or else its middle.
fn level_with_targets(wire: &Wire) -> f64 {
    let (low, high) = wire.ends[0].cell;
    let shared = wire.ends[1..]
        .iter()
        .filter(|end| end.side != wire.ends[0].side)
        .map(|end| (end.cell.0.max(low), end.cell.1.min(high)))
        .filter(|(low, high)| low <= high)
        .max_by(|one, two| (one.1 - one.0).total_cmp(&(two.1 - two.0)));
    let (low, high) = shared.unwrap_or((low, high));
    (low + high) / 2.0
}

/// The place in the cell nearest to the wish that is clear of other nets.
fn free(used: &[(f64, usize)], net: usize, cell: (f64, f64), wish: f64) -> f64 {
    let steps = ((cell.1 - cell.0) / STEP).ceil().max(0.0) as i32;
    let mut places: Vec<f64> = (0..=steps).map(|step| cell.0 + f64::from(step) * STEP).collect();
    places.retain(|place| *place <= cell.1);
    places.push(wish);
    places.sort_by(|one, two| (one - wish).abs().total_cmp(&(two - wish).abs()));
    for clear in CLEAR {
        let is_clear = |place: &&f64| {
            let mut others = used.iter().filter(|(_, other)| *other != net);
            others.all(|(y, _)| (y - **place).abs() >= clear)
        };
        if let Some(place) = places.iter().find(is_clear) {
            return *place;
        }
    }
    wish
}
