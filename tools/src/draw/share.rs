//! Shares out cards among pages: cards that links join stand near each other in one line, and the line is cut where
//! few links are.

use super::graph::Graph;

/// The cards in one line: a card, then what it leads to, then what follows it in its sequence.
pub fn line_up(whole: &Graph, cards: &[usize]) -> Vec<usize> {
    let mut chosen = vec![false; whole.cards];
    let mut entered = vec![false; whole.cards];
    let mut leaving: Vec<Vec<(bool, usize)>> = vec![Vec::new(); whole.cards];
    for card in cards {
        chosen[*card] = true;
    }
    for arrow in whole.arrows.iter().filter(|arrow| arrow.from != arrow.to) {
        entered[arrow.to] |= chosen[arrow.from];
        leaving[arrow.from].push((whole.in_sequence(arrow), arrow.to));
    }
    let mut line = Vec::new();
    let starts = cards.iter().filter(|card| !entered[**card]);
    for start in starts.chain(cards) {
        let mut waiting = vec![*start];
        while let Some(card) = waiting.pop() {
            if !std::mem::replace(&mut chosen[card], false) {
                continue;
            }
            line.push(card);
            // The last one pushed comes first.
            leaving[card].sort_by_key(|(follows, to)| (!follows, std::cmp::Reverse(*to)));
            waiting.extend(leaving[card].iter().map(|(_, to)| *to));
        }
    }
    line
}

/// Cuts a line into this many pieces of about the same length.
pub fn cut(whole: &Graph, line: &[usize], pieces: usize) -> Vec<Vec<usize>> {
    let crossing = crossing(whole, line);
    let each = line.len() as f64 / pieces as f64;
    // A cut may move this far for the sake of fewer links across it.
    let leeway = (each / 5.0) as usize;
    let mut starts = vec![0];
    for number in 1..pieces {
        let middle = (each * number as f64).round() as usize;
        let places = middle.saturating_sub(leeway).max(1)..=(middle + leeway).min(line.len() - 1);
        let best = places.min_by_key(|place| (crossing[*place], place.abs_diff(middle)));
        starts.push(best.unwrap_or(middle));
    }
    starts.push(line.len());
    starts
        .windows(2)
        .map(|two| line[two[0]..two[1]].to_vec())
        .filter(|piece| !piece.is_empty())
        .collect()
}

/// For each place of a line, how many links join what stands before it with the rest.
fn crossing(whole: &Graph, line: &[usize]) -> Vec<i64> {
    let mut place = vec![None; whole.cards];
    for (number, card) in line.iter().enumerate() {
        place[*card] = Some(number);
    }
    let mut change = vec![0i64; line.len() + 1];
    for arrow in &whole.arrows {
        if let (Some(one), Some(two)) = (place[arrow.from], place[arrow.to]) {
            change[one.min(two) + 1] += 1;
            change[one.max(two) + 1] -= 1;
        }
    }
    let mut sum = 0;
    change
        .iter()
        .map(|step| {
            sum += step;
            sum
        })
        .collect()
}
