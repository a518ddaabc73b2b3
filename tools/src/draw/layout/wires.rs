//! The wires of each channel: the parts of the nets in it, with all their ends placed.

use super::super::nets::{Net, Side, Slot};
use super::super::ports::{cells, place, End, EndKind, Wire};
use super::frame::Frame;

/// The wires of each channel; channel c lies right of column c.
pub fn wires(frame: &Frame) -> Vec<Vec<Wire>> {
    let mut channels: Vec<Vec<Wire>> = vec![Vec::new(); frame.boxes.len()];
    for (number, net) in frame.nets.iter().enumerate() {
        if !net.targets.is_empty() {
            add_net(frame, number, net, &mut channels);
        }
    }
    for card in 0..frame.home.len() {
        share_side(frame, card, Side::Left, &mut channels);
        share_side(frame, card, Side::Right, &mut channels);
    }
    for channel in &mut channels {
        place(channel);
    }
    channels
}

/// The channel at a side of a column, and the side of that channel at which the column lies.
fn beside(column: usize, side: Side) -> Option<(usize, Side)> {
    match side {
        Side::Right => Some((column, Side::Left)),
        Side::Left => Some((column.checked_sub(1)?, Side::Right)),
    }
}

/// Adds the wires of a net, from its start onwards.
fn add_net(frame: &Frame, number: usize, net: &Net, channels: &mut [Vec<Wire>]) {
    let passes = net.passes(&frame.home);
    let mut column = frame.home[net.from];
    let mut start = (EndKind::Exit(net.from), Slot::Card(net.from));
    while let Some((channel, side)) = beside(column, net.side) {
        let mut ends = vec![end(frame, start.0, side, start.1, column)];
        let next = match net.side {
            Side::Right => column + 1,
            Side::Left => column - 1,
        };
        for target in &net.targets {
            let (home, slot) = (frame.home[*target], Slot::Card(*target));
            let returns = home == column && matches!(start.0, EndKind::Exit(_));
            if home == next || returns {
                let side = if returns { side } else { opposite(side) };
                ends.push(end(frame, EndKind::Entry(*target), side, slot, home));
            }
        }
        let slot = Slot::Pass(number);
        let goes_on = passes.contains(&next);
        if goes_on {
            ends.push(end(frame, EndKind::PassIn, opposite(side), slot, next));
        }
        channels[channel].push(Wire { net: number, ends });
        if !goes_on {
            return;
        }
        column = next;
        start = (EndKind::PassOut, slot);
    }
}

/// An end in the middle of its slot.
fn end(frame: &Frame, kind: EndKind, side: Side, slot: Slot, column: usize) -> End {
    let y = frame.find(slot, column).middle();
    End {
        kind,
        side,
        cell: (y, y),
        y,
    }
}

fn opposite(side: Side) -> Side {
    match side {
        Side::Left => Side::Right,
        Side::Right => Side::Left,
    }
}

/// Shares out a side of a card among the ends there, in the order of what they lead to.
fn share_side(frame: &Frame, card: usize, side: Side, channels: &mut [Vec<Wire>]) {
    let column = frame.home[card];
    let Some((channel, channel_side)) = beside(column, side) else {
        return;
    };
    let wires = &mut channels[channel];
    let mut ends: Vec<(f64, usize, usize)> = Vec::new();
    for (wire_number, wire) in wires.iter().enumerate() {
        for (end_number, end) in wire.ends.iter().enumerate() {
            let here = end.kind == EndKind::Exit(card) || end.kind == EndKind::Entry(card);
            if here && end.side == channel_side {
                ends.push((wish(wire, end_number), wire_number, end_number));
            }
        }
    }
    if ends.is_empty() {
        return;
    }
    ends.sort_by(|one, two| one.0.total_cmp(&two.0).then(one.1.cmp(&two.1)));
    let one = frame.find(Slot::Card(card), column);
    let labelled: Vec<bool> = ends.iter().map(|(_, _, end)| *end == 0).collect();
    let shares = cells(one.top, one.body, &labelled);
    for ((_, wire, end), cell) in ends.into_iter().zip(shares) {
        wires[wire].ends[end].cell = cell;
    }
}

/// The mean height of what an end leads to.
fn wish(wire: &Wire, end: usize) -> f64 {
    if end > 0 {
        return wire.ends[0].y;
    }
    let others = &wire.ends[1..];
    others.iter().map(|end| end.y).sum::<f64>() / others.len().max(1) as f64
}
