//! Both typings of some sheets, typings strictly between them, and grids that are a pair off one of these.

use super::grids::between;
use super::{read, JudgeCase};
use crate::desk::Desk;
use crate::generate::arriving::GUESTS;
use crate::generate::open::OPEN_GUESTS;
use crate::generate::special::{chain, document};
use crate::generate::turns::{chain_back, zigzag};
use crate::generate::{derived, scripts, SMALL, TINY};
use crate::random::Random;
use crate::sheet::Files;
use crate::typing::{closure, links, Grid, Pair, Setting, Smallest};

/// The most pairs of a random sheet among these.
const MOST_PAIRS: usize = 60;
/// How many random sheets have all these grids, and how many more have only the two typings.
const RANDOM_SHEETS: [usize; 2] = [4, 10];

/// The grids of all these sheets.
pub fn typings() -> Vec<JudgeCase> {
    let mut random = Random::new(11);
    let mut sheets = vec![
        ("document", (document(&[1, 0, 2, 1]), Desk::Radio)),
        ("ring", (chain(9, true), Desk::Radio)),
        ("rings", (rings(), Desk::Radio)),
        ("ring-back", (chain_back(5, true), Desk::Radio)),
        ("zigzag", (zigzag(6, false), Desk::Radio)),
        ("guests", (guests(&GUESTS, false), Desk::Television)),
        ("open-guests", (guests(&OPEN_GUESTS, true), Desk::Television)),
    ];
    let [some, more] = RANDOM_SHEETS;
    sheets.extend((0..some).map(|_| ("random", random_sheet(&mut random))));
    let mut cases = Vec::new();
    for (number, (name, (files, desk))) in sheets.into_iter().enumerate() {
        cases.extend(of_sheet(&mut random, &format!("{name}-{number}"), &files, desk));
    }
    for number in 0..more {
        let (files, desk) = random_sheet(&mut random);
        cases.extend(of_sheet(&mut random, &format!("own-{number}"), &files, desk).drain(..2));
    }
    cases
}

/// A sheet that is found by trying, and a desk that books there.
fn random_sheet(random: &mut Random) -> (Files, Desk) {
    loop {
        let scale = random.pick(&[TINY, SMALL]);
        let desk = random.pick(&Desk::BOTH);
        let files = derived(random, scale);
        if has_between(random, &files, desk) {
            return (files, desk);
        }
    }
}

/// Three rings of two cards each, of which one is booked. Each ring has the one shape or hasn't.
fn rings() -> Files {
    let ends = [(0, 3), (1, 4), (2, 5)];
    let links: scripts::Links = ends
        .iter()
        .flat_map(|(a, b)| [(*a, 0, *b), (*b, 0, *a)])
        .collect();
    Files {
        template: vec![1, 1, 4, 256, 0, 1, 1],
        script: scripts::words(6, &links),
        bookings: vec![1, 0, 4, 0],
    }
}

/// Three items, each with a guest of its own, of whom one is booked. Each item has its shape together with its guest.
/// If they are open, the guests point at the next items too, by a kind that isn't named.
fn guests(template: &[u16], open: bool) -> Files {
    let mut links: scripts::Links = (0..3).map(|item| (item, 0, item + 3)).collect();
    if open {
        links.extend((0..3).map(|item| (item + 3, 1, (item + 1) % 3)));
    }
    Files {
        template: template.to_vec(),
        script: scripts::words(6, &links),
        bookings: vec![1, 1, 4, 1],
    }
}

/// A typing strictly between the two, if one is found.
fn strictly_between(random: &mut Random, setting: &Setting, booked: &[Pair]) -> Option<Grid> {
    let (_, top) = links::largest(setting);
    let bottom = closure::closure(setting, booked);
    let tries = (0..20).map(|_| between(random, setting, booked));
    tries.into_iter().find(|grid| *grid != top && *grid != bottom)
}

/// Whether a sheet is small, the desk books some pair, all that it books is met, and a typing lies strictly between the
/// two.
fn has_between(random: &mut Random, files: &Files, desk: Desk) -> bool {
    let Ok((setting, booked)) = read(files, desk.number()) else {
        return false;
    };
    let is_met = matches!(closure::smallest(&setting, &booked).0, Smallest::Pairs(1..));
    is_met && setting.size() <= MOST_PAIRS && strictly_between(random, &setting, &booked).is_some()
}

/// Both typings of a sheet, then one between them, two grids that are a pair off each, and the grids with all pairs and
/// with none, all for one desk.
fn of_sheet(random: &mut Random, name: &str, files: &Files, desk: Desk) -> Vec<JudgeCase> {
    let Ok((setting, booked)) = read(files, desk.number()) else {
        return Vec::new();
    };
    let mut grids = vec![
        ("largest", links::largest(&setting).1),
        ("smallest", closure::closure(&setting, &booked)),
    ];
    grids.extend(strictly_between(random, &setting, &booked).map(|grid| ("between", grid)));
    for (name, grid) in grids.clone() {
        for byte in [0, 1] {
            grids.extend(one_off(random, &grid, byte).map(|grid| (name, grid)));
        }
    }
    grids.push(("all", vec![1; setting.size()]));
    grids.push(("none", vec![0; setting.size()]));
    let case = |(number, (word, grid)): (usize, (&str, Grid))| JudgeCase {
        name: format!("{name}-{word}-{number}"),
        files: files.clone(),
        desk: desk.number(),
        grid,
    };
    let mut cases: Vec<JudgeCase> = grids.into_iter().enumerate().map(case).collect();
    // Nothing is booked in the last one.
    let grid = vec![0; setting.size()];
    let unbooked = JudgeCase::new(
        format!("{name}-unbooked"),
        &files.template,
        &files.script,
        &[0],
        &grid,
    );
    cases.push(unbooked);
    cases
}

/// The grid with one of its pairs struck (0), or with one more (1); none if there is no such pair.
fn one_off(random: &mut Random, grid: &[u8], byte: u8) -> Option<Grid> {
    let places: Vec<usize> = (0..grid.len()).filter(|place| grid[*place] != byte).collect();
    if places.is_empty() {
        return None;
    }
    let mut changed = grid.to_vec();
    changed[random.pick(&places)] = byte;
    Some(changed)
}
