//! Random grids for a sheet: its typings, what lies between them, and what comes of that by a few wrong bytes.

use crate::random::Random;
use crate::sheet::Files;
use crate::template::MOST_SHAPES;
use crate::typing::{closure, counting, links, Grid, Pair, Setting};

/// A grid for a whole sheet, and a word for how it was made.
pub fn grid(random: &mut Random, setting: &Setting, booked: &[Pair]) -> (&'static str, Grid) {
    match random.below(24) {
        0..=7 => sound(random, setting, booked),
        8..=10 => ("flipped", flipped(random, setting, booked)),
        11 => ("noise", noise(random, setting.size())),
        12 => ("fitting", fitting(setting)),
        13..=15 => ("size", wrong_size(random, setting, booked)),
        16..=18 => ("over", over_one(random, setting, booked)),
        19..=20 => ("unbooked", between(random, setting, &[])),
        21..=22 => ("none", vec![0; setting.size()]),
        _ => ("all", vec![1; setting.size()]),
    }
}

/// A grid whose size and bytes are right.
pub fn whole(random: &mut Random, setting: &Setting, booked: &[Pair]) -> (&'static str, Grid) {
    match random.below(8) {
        0..=2 => sound(random, setting, booked),
        3..=5 => ("flipped", flipped(random, setting, booked)),
        6 => ("fitting", fitting(setting)),
        _ => ("all", vec![1; setting.size()]),
    }
}

/// A grid that is sound if the bookings can be met.
fn sound(random: &mut Random, setting: &Setting, booked: &[Pair]) -> (&'static str, Grid) {
    match random.below(8) {
        0..=1 => ("largest", links::largest(setting).1),
        2..=3 => ("smallest", closure::closure(setting, booked)),
        _ => ("between", between(random, setting, booked)),
    }
}

/// The closure of these bookings and of some further pairs of the largest typing.
pub fn between(random: &mut Random, setting: &Setting, booked: &[Pair]) -> Grid {
    let (_, top) = links::largest(setting);
    let kept = setting.pairs().filter(|pair| top[setting.place(*pair)] == 1);
    let kept: Vec<Pair> = kept.collect();
    let mut start = booked.to_vec();
    if !kept.is_empty() {
        let count = random.between(1, kept.len().div_ceil(4));
        start.extend((0..count).map(|_| random.pick(&kept)));
    }
    closure::closure(setting, &start)
}

/// A typing with a few pairs put in or struck, most often one.
fn flipped(random: &mut Random, setting: &Setting, booked: &[Pair]) -> Grid {
    let (_, mut grid) = sound(random, setting, booked);
    for _ in 0..random.pick(&[1, 1, 1, 2, 4]) {
        if !grid.is_empty() {
            let place = random.below(grid.len());
            grid[place] = 1 - grid[place];
        }
    }
    grid
}

/// Each byte is 0 or 1; how often it is 1 changes from grid to grid.
fn noise(random: &mut Random, size: usize) -> Grid {
    let share = random.pick(&[1, 2, 4, 7]);
    (0..size).map(|_| u8::from(random.chance(share, 8))).collect()
}

/// All pairs whose card's counts fit, whatever the cards at the far ends of its links have.
fn fitting(setting: &Setting) -> Grid {
    counting::all(setting).into_iter().map(u8::from).collect()
}

/// A typing with bytes taken away or put behind it.
fn wrong_size(random: &mut Random, setting: &Setting, booked: &[Pair]) -> Grid {
    let (_, mut grid) = sound(random, setting, booked);
    let shapes = usize::from(setting.template.shapes());
    match random.below(6) {
        0 => grid.truncate(grid.len().saturating_sub(1)),
        1 => grid.push(random.pick(&[0, 1, 2])),
        2 => grid.truncate(grid.len().saturating_sub(shapes)),
        3 => grid.resize(grid.len() + shapes, 0),
        4 => grid.truncate(random.below(grid.len() + 1)),
        _ => grid.clear(),
    }
    if random.chance(1, 4) {
        spoil(random, &mut grid);
    }
    grid
}

/// A typing, or none, with bytes that are neither 0 nor 1.
fn over_one(random: &mut Random, setting: &Setting, booked: &[Pair]) -> Grid {
    let mut grid = match random.chance(1, 3) {
        true => noise(random, setting.size()),
        false => sound(random, setting, booked).1,
    };
    for _ in 0..random.pick(&[1, 1, 2, 5]) {
        spoil(random, &mut grid);
    }
    grid
}

/// Makes one byte greater than 1; the first and the last come more often than others.
fn spoil(random: &mut Random, grid: &mut [u8]) {
    let Some(last) = grid.len().checked_sub(1) else {
        return;
    };
    let any = random.between(0, last);
    let place = random.pick(&[0, last, any, any, any]);
    grid[place] = random.pick(&[2, 2, 3, 127, 128, 254, 255]);
}

/// A grid for files that are refused: cards times shapes as their words say, if they may, or some other size.
pub fn any(random: &mut Random, files: &Files) -> Grid {
    let word = |words: &[u16], place: usize, most: u16| words.get(place).map_or(0, |word| (*word).min(most));
    // A faulty count of cards is cut, so that the grid stays short.
    let (cards, shapes) = (word(&files.script, 0, 64), word(&files.template, 1, MOST_SHAPES));
    let said = usize::from(cards) * usize::from(shapes);
    let other = random.between(0, 20);
    let size = random.pick(&[said, said, other]);
    let mut grid = noise(random, size);
    if random.chance(1, 2) {
        spoil(random, &mut grid);
    }
    grid
}
