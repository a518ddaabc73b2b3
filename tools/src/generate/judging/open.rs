//! Grids about open shapes: cards at the far ends of ignored links that have shapes or none, links that arrive, and the
//! counts of open shapes.

use super::{counts_of, every_grid, JudgeCase};
use crate::generate::open::{ANY, ONE_MORE, OPEN_GUESTS, STRICT, TOLERANT};
use crate::generate::scripts;
use crate::samples::opened;

/// All of these grids.
pub fn open() -> Vec<JudgeCase> {
    [
        every_grid("open", &TOLERANT, &ONE_MORE, &[1, 0, 0, 0]),
        every_grid("open-itself", &TOLERANT, &[2, 2, 0, 0, 1, 0, 1, 0], &[0]),
        every_grid("closed-itself", &STRICT, &[2, 2, 0, 0, 1, 0, 1, 0], &[0]),
        every_grid("open-any", &ANY, &[3, 2, 0, 0, 1, 1, 0, 1], &[1, 0, 1, 0]),
        every_grid(
            "open-guests",
            &OPEN_GUESTS,
            &[2, 3, 0, 0, 1, 0, 1, 0, 1, 1, 0],
            &[1, 0, 1, 1],
        ),
        hubs(),
        counts_of(opened()),
    ]
    .concat()
}

/// A card with 40 ignored links to cards that have no shape and a named one, whose target has its shape or hasn't; and
/// the same under closed shapes.
fn hubs() -> Vec<JudgeCase> {
    let mut links: scripts::Links = (1..=40).map(|card| (0, 1, card)).collect();
    links.insert((0, 0, 41));
    let script = scripts::words(42, &links);
    let grid = |target: u8| [vec![1], vec![0; 82], vec![target]].concat();
    let case = |name: &str, template: &[u16], target: u8| {
        JudgeCase::new(name, template, &script, &[1, 0, 0, 0], &grid(target))
    };
    vec![
        case("open-hub", &TOLERANT, 1),
        case("open-hub-lacking", &TOLERANT, 0),
        case("closed-hub", &STRICT, 1),
    ]
}
