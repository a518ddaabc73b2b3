//! How high each card and slot of a column stands: as near as can be to what it is tied to, in the column's order.

use super::nets::Slot;

/// The height that the way of a net through a column takes.
pub const PASS: f64 = 2.0;
/// The gap between two cards.
pub const GAP: f64 = 5.0;
/// The gap beside a slot.
const PASS_GAP: f64 = 2.0;

/// One slot with its height and what it is tied to.
#[derive(Clone, Debug)]
pub struct Box {
    /// What it is.
    pub slot: Slot,
    /// Its height, chips included.
    pub height: f64,
    /// The height of its body, where arrows end.
    pub body: f64,
    /// Its upper edge.
    pub top: f64,
    /// The boxes that it is tied to: column and row.
    pub ties: Vec<(usize, usize)>,
}

impl Box {
    /// The middle of the body.
    pub fn middle(&self) -> f64 {
        self.top + self.body / 2.0
    }
}

/// The least height of a column.
pub fn least_height(column: &[Box]) -> f64 {
    let last = column.len().saturating_sub(1);
    column
        .iter()
        .enumerate()
        .map(|(row, one)| {
            one.height
                + if row < last {
                    gap(one, &column[row + 1])
                } else {
                    0.0
                }
        })
        .sum()
}

fn gap(upper: &Box, lower: &Box) -> f64 {
    match (upper.slot, lower.slot) {
        (Slot::Card(_), Slot::Card(_)) => GAP,
        _ => PASS_GAP,
    }
}

/// Sets the upper edges of all boxes, within this height.
pub fn settle(columns: &mut [Vec<Box>], height: f64) {
    let is_tied = columns.iter().flatten().any(|one| !one.ties.is_empty());
    for column in columns.iter_mut() {
        // The start: spread over the whole height. Columns that nothing ties all start at the top.
        let gaps = column.len() as f64 + if is_tied { 1.0 } else { 0.0 };
        let spare = (height - least_height(column)) / gaps.max(1.0);
        let mut top = if is_tied { spare } else { 0.0 };
        for row in 0..column.len() {
            column[row].top = top;
            let below = column.get(row + 1).map_or(0.0, |lower| gap(&column[row], lower));
            top += column[row].height + below + spare;
        }
    }
    let count = columns.len();
    for sweep in 0..60 {
        for step in 0..count {
            let column = if sweep % 2 == 0 { step } else { count - 1 - step };
            let wishes: Vec<f64> = columns[column].iter().map(|one| wish(columns, one)).collect();
            move_to(&mut columns[column], &wishes, height);
        }
    }
}

/// The upper edge at which a box is level with what it is tied to.
fn wish(columns: &[Vec<Box>], one: &Box) -> f64 {
    if one.ties.is_empty() {
        return one.top;
    }
    let sum: f64 = one
        .ties
        .iter()
        .map(|(column, row)| columns[*column][*row].middle())
        .sum();
    sum / one.ties.len() as f64 - one.body / 2.0
}

/// The edges nearest to the wishes that keep the order and the gaps: wishes that conflict are met by their mean.
fn move_to(column: &mut [Box], wishes: &[f64], height: f64) {
    let mut offset = 0.0;
    let mut offsets = Vec::new();
    for row in 0..column.len() {
        offsets.push(offset);
        offset += column[row].height + column.get(row + 1).map_or(0.0, |lower| gap(&column[row], lower));
    }
    // Blocks of boxes that stand as close as they may: sum of the wishes, sum of the weights, first row.
    let mut blocks: Vec<(f64, f64, usize)> = Vec::new();
    for (row, wish) in wishes.iter().enumerate() {
        let weight = 0.3 + column[row].ties.len() as f64;
        blocks.push(((wish - offsets[row]) * weight, weight, row));
        while let [.., upper, lower] = blocks[..] {
            if upper.0 / upper.1 <= lower.0 / lower.1 {
                break;
            }
            blocks.truncate(blocks.len() - 2);
            blocks.push((upper.0 + lower.0, upper.1 + lower.1, upper.2));
        }
    }
    let spare = (height - offset).max(0.0);
    for (number, (sum, weight, first)) in blocks.iter().enumerate() {
        let last = blocks.get(number + 1).map_or(column.len(), |next| next.2);
        let start = (sum / weight).clamp(0.0, spare);
        for row in *first..last {
            column[row].top = start + offsets[row];
        }
    }
}
