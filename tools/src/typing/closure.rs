//! The smallest typing: the closure of the bookings, if each pair of it is met.

use super::counting::Counting;
use super::met::needs;
use super::{Grid, Pair, Setting, Smallest};

/// The answer and the grid of the smallest typing. Only the pairs of the closure are tested, which may be few.
pub fn smallest(setting: &Setting, booked: &[Pair]) -> (Smallest, Grid) {
    let grid = closure(setting, booked);
    let mut counting = Counting::new(setting);
    let mut held = setting.pairs().zip(&grid).filter(|(_, byte)| **byte == 1);
    let unfit = held.find(|((card, shape), _)| {
        counting.turn_to(*card);
        !counting.fits(*shape)
    });
    let unfit = unfit.map(|(pair, _)| pair);
    answered(grid, unfit)
}

/// The same if it is known for each pair, by its place, whether its counts fit.
pub fn smallest_where(setting: &Setting, booked: &[Pair], fits: &[bool]) -> (Smallest, Grid) {
    let grid = closure(setting, booked);
    let mut places = grid.iter().zip(fits);
    let unfit = places.position(|(byte, fits)| *byte == 1 && !fits);
    let unfit = unfit.and_then(|place| setting.pairs().nth(place));
    answered(grid, unfit)
}

/// The answer for a closure and the lowest pair of it whose counts don't fit. A pair of the closure has all that its
/// links need in the closure too, so it is met if and only if its card's counts fit.
fn answered(closure: Grid, unfit: Option<Pair>) -> (Smallest, Grid) {
    match unfit {
        Some((card, shape)) => (Smallest::NotMet(card, shape), vec![0; closure.len()]),
        None => {
            let pairs = closure.iter().filter(|byte| **byte == 1).count();
            (Smallest::Pairs(pairs), closure)
        }
    }
}

/// The least set of pairs with the bookings and, for (n, t) in it and a link at n whose kind t names the way it runs
/// there, with shape u, the pair of the card at the other end and u.
pub fn closure(setting: &Setting, booked: &[Pair]) -> Grid {
    let named = setting.template.named();
    let mut grid = vec![0; setting.size()];
    let mut waiting = Vec::new();
    let mut reach = |waiting: &mut Vec<Pair>, pair: Pair| {
        let entry = &mut grid[setting.place(pair)];
        if *entry == 0 {
            *entry = 1;
            waiting.push(pair);
        }
    };
    for pair in booked {
        reach(&mut waiting, *pair);
    }
    while let Some((card, shape)) = waiting.pop() {
        for (_, far) in needs(setting, &named[shape.index()], card) {
            reach(&mut waiting, far);
        }
    }
    grid
}
