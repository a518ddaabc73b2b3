//! The column of each card. Cards joined by a sequence stand in one column; other links lead to the right where
//! they can. A column that is too high is cut into two, and columns in too long a row are folded.

use super::fold::{cut, fill, fold, Folded};
use super::graph::Graph;
use std::collections::BTreeSet;

/// The columns of a page whose cards have these heights and this width.
pub fn columns(graph: &Graph, tall: &[f64], wide: f64) -> Folded {
    let group = groups(graph);
    let edges = group_edges(graph, &group);
    let layer = layers(graph.cards, &group, &edges);
    let linked: BTreeSet<usize> = graph
        .arrows
        .iter()
        .flat_map(|arrow| [arrow.from, arrow.to])
        .collect();
    let count = 1 + layer.iter().max().copied().unwrap_or(0);
    let mut columns = vec![Vec::new(); count];
    for card in first_order(graph) {
        if linked.contains(&card) {
            columns[layer[group[card]]].push(card);
        }
    }
    columns.retain(|column| !column.is_empty());
    let mut folded = fold(cut(columns, tall), tall, wide);
    let others: Vec<usize> = (0..graph.cards).filter(|card| !linked.contains(card)).collect();
    fill(&mut folded, &others, tall, wide);
    folded
}

/// The cards in their own order, but along each sequence.
fn first_order(graph: &Graph) -> Vec<usize> {
    let mut order = Vec::new();
    let mut seen = vec![false; graph.cards];
    let has_before = |card: usize| {
        let leads_here = |arrow: &&super::graph::Arrow| arrow.to == card && graph.in_sequence(arrow);
        graph.arrows.iter().any(|arrow| leads_here(&arrow))
    };
    let starts = (0..graph.cards).filter(|card| !has_before(*card));
    for start in starts.chain(0..graph.cards) {
        let mut waiting = vec![start];
        while let Some(card) = waiting.pop() {
            if std::mem::replace(&mut seen[card], true) {
                continue;
            }
            order.push(card);
            let next = graph
                .arrows
                .iter()
                .filter(|arrow| arrow.from == card && graph.in_sequence(arrow));
            waiting.extend(next.map(|arrow| arrow.to));
        }
    }
    order
}

/// For each card, the lowest card that a sequence joins it with.
fn groups(graph: &Graph) -> Vec<usize> {
    let mut group: Vec<usize> = (0..graph.cards).collect();
    loop {
        let mut changed = false;
        for arrow in graph.arrows.iter().filter(|arrow| graph.in_sequence(arrow)) {
            let lowest = group[arrow.from].min(group[arrow.to]);
            for card in [arrow.from, arrow.to] {
                changed |= group[card] != lowest;
                group[card] = lowest;
            }
        }
        if !changed {
            return group;
        }
    }
}

/// The links between groups, without those that close a circle.
fn group_edges(graph: &Graph, group: &[usize]) -> Vec<(usize, usize)> {
    let edges: BTreeSet<(usize, usize)> = graph
        .arrows
        .iter()
        .map(|arrow| (group[arrow.from], group[arrow.to]))
        .filter(|(from, to)| from != to)
        .collect();
    // A link to a group on the way to here closes a circle. The state: 0 new, 1 on the way, 2 done.
    let mut state = vec![0u8; graph.cards];
    let mut kept = Vec::new();
    for start in 0..graph.cards {
        let mut way: Vec<(usize, Vec<usize>)> = Vec::new();
        let targets = |from: usize| edges.range((from, 0)..(from + 1, 0)).map(|(_, to)| *to).collect();
        if state[start] == 0 {
            state[start] = 1;
            way.push((start, targets(start)));
        }
        while let Some((from, left)) = way.last_mut() {
            let Some(to) = left.pop() else {
                state[*from] = 2;
                way.pop();
                continue;
            };
            if state[to] != 1 {
                kept.push((*from, to));
            }
            if state[to] == 0 {
                state[to] = 1;
                way.push((to, targets(to)));
            }
        }
    }
    kept
}

/// For each group, its column: as far left as its links allow, then moved to where its links are shortest.
fn layers(cards: usize, group: &[usize], edges: &[(usize, usize)]) -> Vec<usize> {
    let mut layer = vec![0usize; cards];
    loop {
        let mut changed = false;
        for (from, to) in edges {
            if layer[*to] <= layer[*from] {
                layer[*to] = layer[*from] + 1;
                changed = true;
            }
        }
        if !changed {
            break;
        }
    }
    let mut size = vec![0; cards];
    for which in group {
        size[*which] += 1;
    }
    for _ in 0..4 {
        for which in (0..cards).filter(|which| size[*which] > 0) {
            if let Some(best) = best_layer(which, &layer, &size, edges) {
                layer[which] = best;
            }
        }
    }
    layer
}

/// The column between its neighbours in which a group's links are shortest, and of those the one with fewest cards.
fn best_layer(which: usize, layer: &[usize], size: &[usize], edges: &[(usize, usize)]) -> Option<usize> {
    let before: Vec<usize> = edges
        .iter()
        .filter(|edge| edge.1 == which)
        .map(|edge| layer[edge.0])
        .collect();
    let after: Vec<usize> = edges
        .iter()
        .filter(|edge| edge.0 == which)
        .map(|edge| layer[edge.1])
        .collect();
    let lowest = before.iter().max().map_or(0, |most| most + 1);
    let highest = after.iter().min().map(|least| least - 1)?;
    let held = |place: usize| {
        let others = (0..layer.len()).filter(|other| *other != which && layer[*other] == place);
        others.map(|other| size[other]).sum::<usize>()
    };
    let length = |place: usize| {
        let left: usize = before.iter().map(|other| place - other).sum();
        left + after.iter().map(|other| other - place).sum::<usize>()
    };
    (lowest..=highest).min_by_key(|place| (length(*place), held(*place)))
}
