//! The largest typing in time that grows with the links and shapes and not with the rounds.
//!
//! A pair whose card's counts don't fit its shape is struck in round 1, whatever the grid. Any other pair is
//! struck in the round after the first of the pairs that its links need. So one walk, breadth-first from what is struck
//! to what needs it, finds the round in which each pair is struck. Each pair is walked from once, and only over the
//! links at its card and the shapes that ask for its shape by their labels at the other end.

use super::{counting, Grid, Largest, Pair, Setting};
use crate::labels::Labelled;
use crate::numbers::Shape;

/// The round of a pair that isn't struck.
const NEVER: u16 = 0;

/// The answer and the grid of the largest typing.
pub fn largest(setting: &Setting) -> (Largest, Grid) {
    largest_where(setting, &counting::all(setting))
}

/// The same if it is known for each pair, by its place, whether its counts fit.
pub fn largest_where(setting: &Setting, fits: &[bool]) -> (Largest, Grid) {
    let (round, strikes) = strike_rounds(setting, fits);
    let grid: Grid = round.iter().map(|round| u8::from(*round == NEVER)).collect();
    let last = strikes.last().map_or(NEVER, |pair| round[setting.place(*pair)]);
    let answer = Largest {
        rounds: usize::from(last) + 1,
        struck: strikes.len(),
        bare: setting.bare(&grid),
    };
    (answer, grid)
}

/// For each pair, by its place, the round in which it is struck; and all pairs that are, round after round.
fn strike_rounds(setting: &Setting, fits: &[bool]) -> (Vec<u16>, Vec<Pair>) {
    let mut round = vec![NEVER; setting.size()];
    let mut strikes = Vec::with_capacity(setting.size());
    for (pair, fits) in setting.pairs().zip(fits) {
        if !fits {
            round[setting.place(pair)] = 1;
            strikes.push(pair);
        }
    }
    let users = users(setting);
    let mut next = 0;
    while next < strikes.len() {
        let (card, needed) = strikes[next];
        let later = round[setting.place((card, needed))] + 1;
        next += 1;
        for end in setting.script.ends_of(card) {
            for user in &users[end.label.turned()][needed.index()] {
                let entry = &mut round[setting.place((end.far, *user))];
                if *entry == NEVER {
                    *entry = later;
                    strikes.push((end.far, *user));
                }
            }
        }
    }
    (round, strikes)
}

/// For each label and each shape, the shapes that name this label with this shape.
fn users(setting: &Setting) -> Labelled<Vec<Vec<Shape>>> {
    let template = &setting.template;
    let mut users = Labelled::new(template.kinds, vec![Vec::new(); template.definitions.len()]);
    for (shape, part) in (0..).map(Shape).zip(template.parts()) {
        for link in part.links() {
            users[link.label][link.shape.index()].push(shape);
        }
    }
    users
}
