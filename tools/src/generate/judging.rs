//! Inputs for *Judge a grid*: sheets, each with a desk and a grid.
//!
//! | here       | what                                                                       |
//! |------------|----------------------------------------------------------------------------|
//! | `samples`  | the examples of docs/FORMAT.md, and every grid of the worked sheet         |
//! | `edges`    | each refusal of a grid from both sides                                     |
//! | `arriving` | links that arrive                                                          |
//! | `open`     | open shapes                                                                |
//! | `runs`     | counting the links of a card; alike cards                                  |
//! | `orders`   | several faults at once: which one is told                                  |
//! | `typings`  | both typings of some sheets, typings between them, and what is a pair off  |
//! | `limits`   | everything at its limit                                                    |
//! | `repeats`  | booking lists in which a desk books a pair twice, or nearly so             |
//! | `desks`    | whose the bookings are, and which desk is asked for                        |
//! | `grids`    | random grids                                                               |

pub mod arriving;
pub mod desks;
pub mod edges;
pub mod grids;
pub mod limits;
pub mod open;
pub mod orders;
pub mod repeats;
pub mod runs;
pub mod samples;
pub mod typings;

use super::{alike, counted, flat, in_turn, Scale};
use crate::desk::Desk;
use crate::random::Random;
use crate::refusal::Refusal;
use crate::samples::Counted;
use crate::sheet::{self, Files};
use crate::typing::judge::{self, judge_by_choices};
use crate::typing::{self, bookings, Pair, Setting};

/// One sheet with a desk and a grid, and a name that says how they were made.
#[derive(Clone, PartialEq, Eq, Debug)]
pub struct JudgeCase {
    /// How it was made.
    pub name: String,
    /// The template, the script and the bookings.
    pub files: Files,
    /// The desk that is asked for.
    pub desk: u16,
    /// The bytes of the grid.
    pub grid: Vec<u8>,
}

impl JudgeCase {
    /// A case of these words and bytes, which asks for the radio.
    pub fn new(
        name: impl Into<String>,
        template: &[u16],
        script: &[u16],
        bookings: &[u16],
        grid: &[u8],
    ) -> JudgeCase {
        JudgeCase {
            name: name.into(),
            files: Files {
                template: template.to_vec(),
                script: script.to_vec(),
                bookings: bookings.to_vec(),
            },
            desk: Desk::Radio.number(),
            grid: grid.to_vec(),
        }
    }

    /// The same for another desk, whose number may be wrong.
    pub fn asking_for(self, desk: u16) -> JudgeCase {
        JudgeCase { desk, ..self }
    }

    /// The line that is owed, found by trying choices where these aren't too many.
    pub fn answer(&self) -> String {
        let Files {
            template,
            script,
            bookings,
        } = &self.files;
        judge::answer(judge_by_choices(
            template, script, bookings, self.desk, &self.grid,
        ))
    }
}

/// The cases that are the same for every seed.
pub fn fixed() -> Vec<JudgeCase> {
    [
        samples::samples(),
        samples::worked(),
        edges::edges(),
        arriving::arriving(),
        open::open(),
        runs::runs(),
        runs::alike(),
        orders::orders(),
        typings::typings(),
        limits::limits(),
        repeats::repeats(),
        desks::desks(),
    ]
    .concat()
}

/// A sheet with each grid of 0s and 1s that it can have.
fn every_grid(name: &str, template: &[u16], script: &[u16], bookings: &[u16]) -> Vec<JudgeCase> {
    let size = script[0] * template[1];
    (0..1_u32 << size)
        .map(|bits| {
            let grid: Vec<u8> = (0..size).map(|place| (bits >> place & 1) as u8).collect();
            JudgeCase::new(format!("{name}-{bits}"), template, script, bookings, &grid)
        })
        .collect()
}

/// Sheets on which card 0 has so many links, all joining it to cards that have the shape asked for, and the grid gives
/// it the shape that the counts fit or not.
fn counts_of(counted: Vec<Counted>) -> Vec<JudgeCase> {
    let case = |(name, shape, counts): Counted| {
        let files = counted::sheet(&shape, &counts)?;
        let mut grid = [0, 1].repeat(files.script[0].into());
        grid[..2].copy_from_slice(&[1, 0]);
        let name = format!("counts-{name}");
        let desk = Desk::Radio.number();
        Some(JudgeCase {
            name,
            files,
            desk,
            grid,
        })
    };
    counted.into_iter().filter_map(case).collect()
}

/// The cases of one seed: the fixed ones first, then as many random ones as are asked for.
pub fn cases(seed: u64, count: usize) -> impl Iterator<Item = JudgeCase> {
    fixed()
        .into_iter()
        .chain(in_turn(seed, case, flat_case, alike_case))
        .take(count)
}

/// One random case that is about counting: a whole sheet.
fn flat_case(random: &mut Random) -> JudgeCase {
    let scale = flat::scale(random);
    let files = flat::flat(random, scale);
    whole_case(random, "flat", scale, files)
}

/// One random case with alike cards: a whole sheet.
fn alike_case(random: &mut Random) -> JudgeCase {
    let scale = alike::scale(random);
    let files = alike::alike(random, scale);
    whole_case(random, "alike", scale, files)
}

/// A whole sheet, made in this way and of this scale, with a random grid.
fn whole_case(random: &mut Random, way: &str, scale: Scale, files: Files) -> JudgeCase {
    let desk = desk(random);
    let (name, grid) = match read(&files, desk) {
        Ok((setting, booked)) => grids::whole(random, &setting, &booked),
        Err(refusal) => panic!("a generated sheet has a fault, {refusal}"),
    };
    JudgeCase {
        name: format!("{way}-{}-{name}", scale.name),
        files,
        desk,
        grid,
    }
}

/// One random case that is neither about counting nor about alike cards: a whole sheet, or one with a faulty file.
pub fn case(random: &mut Random) -> JudgeCase {
    let is_whole = random.chance(5, 6);
    loop {
        let source = super::case(random);
        let Ok(files) = sheet::split(&source.bytes) else {
            continue;
        };
        let desk = desk(random);
        let (name, grid) = match read(&files, desk) {
            Ok((setting, booked)) if is_whole => grids::grid(random, &setting, &booked),
            Err(_) if !is_whole => ("any", grids::any(random, &files)),
            _ => continue,
        };
        let name = format!("{}-{name}", source.name);
        return JudgeCase {
            name,
            files,
            desk,
            grid,
        };
    }
}

/// A desk to ask for: one of the two, now and then another number.
fn desk(random: &mut Random) -> u16 {
    match random.chance(1, 16) {
        true => random.pick(&[2, 2, 3, 256, 65535]),
        false => random.word(0, 1),
    }
}

/// A sheet that is read, and what a desk books; for a number that is no desk's, what the radio books.
fn read(files: &Files, desk: u16) -> Result<(Setting, Vec<Pair>), Refusal> {
    let (setting, booked) = typing::read(&files.template, &files.script, &files.bookings)?;
    let desk = Desk::numbered(desk).unwrap_or(Desk::Radio);
    Ok((setting, bookings::of(desk, &booked)))
}
