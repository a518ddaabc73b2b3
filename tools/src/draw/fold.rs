//! How columns share a page: too high ones are cut, and a long row of columns is folded into bands that stand one
//! below the other, like the lines of a text. Cards without links fill what is free.

/// The width that a channel between two columns takes, about.
const CHANNEL: f64 = 24.0;
/// The width of a channel without arrows.
pub const EMPTY_CHANNEL: f64 = 6.0;
/// The room for a picture, about.
pub const ROOM: (f64, f64) = (394.0, 212.0);
/// A row of columns is folded only if the picture has to be made smaller than this for its sake,
const SMALL_SCALE: f64 = 0.7;
/// and if folding makes it this much larger.
const GAIN: f64 = 1.2;

/// The columns of a picture.
#[derive(Clone, Debug)]
pub struct Folded {
    /// For each column, its cards in a first order.
    pub columns: Vec<Vec<usize>>,
    /// For each card, its band, from the top.
    pub band: Vec<usize>,
}

/// Cuts columns that are too high into several of about the same height.
pub fn cut(columns: Vec<Vec<usize>>, tall: &[f64]) -> Vec<Vec<usize>> {
    let mean = tall.iter().sum::<f64>() / tall.len().max(1) as f64;
    let rows = (2.5 * (tall.len() as f64).sqrt()).ceil().max(6.0);
    let most = rows * mean;
    let mut all = Vec::new();
    for column in columns {
        let pieces = (height(&column, tall) / most).ceil().max(1.0);
        let each = height(&column, tall) / pieces;
        let mut above = 0.0;
        let mut piece = Vec::new();
        for card in column {
            // A card goes into the piece in which its middle lies.
            if above + tall[card] / 2.0 > each && !piece.is_empty() {
                all.push(std::mem::take(&mut piece));
                above = 0.0;
            }
            above += tall[card];
            piece.push(card);
        }
        all.push(piece);
    }
    all
}

fn height(column: &[usize], tall: &[f64]) -> f64 {
    column.iter().map(|card| tall[*card]).sum()
}

/// The scale at which a picture of this size fits its room.
fn scale(width: f64, height: f64) -> f64 {
    (ROOM.0 / width.max(1.0)).min(ROOM.1 / height.max(1.0))
}

/// Folds a row of columns into as many bands as make the picture largest.
pub fn fold(columns: Vec<Vec<usize>>, tall: &[f64], wide: f64) -> Folded {
    let heights: Vec<f64> = columns.iter().map(|column| height(column, tall)).collect();
    let in_row = |bands: usize| columns.len().div_ceil(bands);
    let scale_of = |bands: &usize| {
        let rows = heights.chunks(in_row(*bands).max(1));
        let high: f64 = rows.map(|row| row.iter().copied().fold(0.0, f64::max)).sum();
        scale(in_row(*bands) as f64 * (wide + CHANNEL), high)
    };
    let best =
        (1..=columns.len()).max_by(|one, two| scale_of(one).total_cmp(&scale_of(two)).then(two.cmp(one)));
    let best = best.unwrap_or(1);
    let bands = if scale_of(&1) < SMALL_SCALE && scale_of(&best) > GAIN * scale_of(&1) {
        best
    } else {
        1
    };
    let mut folded = Folded {
        columns: vec![Vec::new(); in_row(bands)],
        band: vec![bands - 1; tall.len()],
    };
    for (number, column) in columns.into_iter().enumerate() {
        let in_row = folded.columns.len();
        for card in column {
            folded.band[card] = number / in_row;
            folded.columns[number % in_row].push(card);
        }
    }
    folded
}

/// Adds cards without links, each to the column that is shortest, and as many new columns as suit the page.
pub fn fill(folded: &mut Folded, others: &[usize], tall: &[f64], wide: f64) {
    let linked = folded.columns.len();
    let heights: Vec<f64> = folded.columns.iter().map(|column| height(column, tall)).collect();
    let places = |more: usize| {
        let mut heights = heights.clone();
        heights.resize(linked + more, 0.0);
        let mut places = Vec::new();
        for card in others {
            let shortest = (0..heights.len()).min_by(|one, two| heights[*one].total_cmp(&heights[*two]));
            let shortest = shortest.unwrap_or(0);
            heights[shortest] += tall[*card];
            places.push(shortest);
        }
        let width = linked as f64 * (wide + CHANNEL) + more as f64 * (wide + EMPTY_CHANNEL);
        (scale(width, heights.iter().copied().fold(0.0, f64::max)), places)
    };
    if others.is_empty() {
        return;
    }
    let mut best = (0.0, 0, Vec::new());
    for more in usize::from(linked == 0)..=others.len() {
        let (scale, places) = places(more);
        // More columns only if that is worth it; beyond that the page is full.
        if scale.min(1.5) > 1.02 * best.0 {
            best = (scale.min(1.5), more, places);
        }
    }
    folded.columns.resize(linked + best.1, Vec::new());
    for (card, place) in others.iter().zip(best.2) {
        folded.columns[place].push(*card);
    }
}
