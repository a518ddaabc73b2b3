//! The tracks of a channel: the vertical parts of its wires, in an order with few crossings. Wires that don't
//! come near each other may share a track.

use super::nets::Side;
use super::ports::Wire;

/// How near two wires on one track may come.
const NEAR: f64 = 2.4;
/// Ends this close are level.
pub const LEVEL: f64 = 0.05;

/// For each wire, its track; none if all its ends are level.
pub fn tracks(wires: &[Wire]) -> (Vec<Option<usize>>, usize) {
    let mut order: Vec<usize> = (0..wires.len()).filter(|wire| !is_level(&wires[*wire])).collect();
    // A good start: wires that lead down stand from right to left, so that they don't cross.
    order.sort_by(|one, two| middle(&wires[*one]).total_cmp(&middle(&wires[*two])));
    improve(wires, &mut order);
    let mut track = vec![None; wires.len()];
    let mut count = 0;
    for (place, wire) in order.iter().enumerate() {
        let after = order[..place]
            .iter()
            .filter(|other| near(&wires[*wire], &wires[**other]))
            .filter_map(|other| track[*other].map(|number: usize| number + 1))
            .max();
        let number = after.unwrap_or(0);
        track[*wire] = Some(number);
        count = count.max(number + 1);
    }
    (track, count)
}

/// Moves single wires to other tracks as long as that saves crossings.
fn improve(wires: &[Wire], order: &mut Vec<usize>) {
    let table: Vec<Vec<i64>> = wires
        .iter()
        .map(|left| wires.iter().map(|right| crossings(left, right)).collect())
        .collect();
    let mut better = true;
    while better {
        better = false;
        for from in 0..order.len() {
            let (saved, to) = best_move(&table, order, from);
            if saved > 0 {
                let wire = order.remove(from);
                order.insert(to, wire);
                better = true;
            }
        }
    }
}

/// The place to which a wire is best moved, and the crossings that this saves.
fn best_move(table: &[Vec<i64>], order: &[usize], from: usize) -> (i64, usize) {
    let wire = order[from];
    let mut best = (0, from);
    let mut saved = 0;
    for to in (0..from).rev() {
        let other = order[to];
        saved += table[other][wire] - table[wire][other];
        if saved > best.0 {
            best = (saved, to);
        }
    }
    saved = 0;
    for (to, other) in order.iter().enumerate().skip(from + 1) {
        saved += table[wire][*other] - table[*other][wire];
        if saved > best.0 {
            best = (saved, to);
        }
    }
    best
}

/// How often two wires cross if the first has its track further left.
fn crossings(left: &Wire, right: &Wire) -> i64 {
    let count = |wire: &Wire, side: Side, (low, high): (f64, f64)| {
        let ends = wire.ends.iter().filter(|end| end.side == side);
        ends.filter(|end| low < end.y && end.y < high).count() as i64
    };
    count(right, Side::Left, span(left)) + count(left, Side::Right, span(right))
}

/// The lowest and the highest place of a wire.
pub fn span(wire: &Wire) -> (f64, f64) {
    let low = wire.ends.iter().map(|end| end.y).fold(f64::INFINITY, f64::min);
    let high = wire
        .ends
        .iter()
        .map(|end| end.y)
        .fold(f64::NEG_INFINITY, f64::max);
    (low, high)
}

/// Whether a wire needs no track: it leads straight across.
fn is_level(wire: &Wire) -> bool {
    let (low, high) = span(wire);
    let across = wire.ends[1..].iter().all(|end| end.side != wire.ends[0].side);
    high - low < LEVEL && across
}

fn middle(wire: &Wire) -> f64 {
    let (low, high) = span(wire);
    low + high
}

fn near(one: &Wire, two: &Wire) -> bool {
    let (one, two) = (span(one), span(two));
    one.0 - NEAR < two.1 && two.0 - NEAR < one.1
}
