//! Inputs for *Tidy bookings*: sheets with stored lists, each with a buffer.
//!
//! | here      | what                                                                        |
//! |-----------|-----------------------------------------------------------------------------|
//! | `samples` | the examples of docs/FORMAT.md                                              |
//! | `orders`  | several faults at once: which one is told                                   |
//! | `lists`   | how often pairs stand in a list and where, up to the limit                  |

pub mod lists;
pub mod orders;
pub mod samples;

use super::stored::without_desks;
use super::{desks, edges, repeats, Case};
use crate::random::Random;
use crate::sheet::{self, Files};
use crate::typing::bookings::{self, MOST_BOOKINGS};
use crate::typing::tidying::{answer, tidy};
use crate::typing::{Pair, Setting};

/// What each word of a buffer is before the call.
pub const UNTOUCHED: u16 = 7;

/// One sheet with a stored list and a buffer, and a name that says how they were made.
#[derive(Clone, PartialEq, Eq, Debug)]
pub struct TidyCase {
    /// How it was made.
    pub name: String,
    /// The template, the script and the stored list.
    pub files: Files,
    /// How many words the buffer has.
    pub words: usize,
}

impl TidyCase {
    /// A case whose buffer has the length that the list asks for.
    pub fn new(name: impl Into<String>, files: Files) -> TidyCase {
        TidyCase {
            name: name.into(),
            words: room(&files.bookings),
            files,
        }
    }

    /// The line that is owed: the answer and, behind a colon, the buffer after the call.
    pub fn answer(&self) -> String {
        let mut buffer = vec![UNTOUCHED; self.words];
        let Files {
            template,
            script,
            bookings,
        } = &self.files;
        let words = tidy(template, script, bookings, &mut buffer);
        answer(words, &buffer)
    }
}

/// The length of a buffer for a list of this length: three words for each booking, and one.
pub fn room(stored: &[u16]) -> usize {
    1 + 3 * (stored.len().saturating_sub(1) / 2)
}

/// The cases that are the same for every seed.
pub fn fixed() -> Vec<TidyCase> {
    let split = |case: Case| Some(TidyCase::new(case.name, stored(sheet::split(&case.bytes).ok()?)));
    let named = |(name, files): (String, Files)| TidyCase::new(name, files);
    let with_desks = desks::sheets().into_iter().take(WITH_DESKS);
    let lists = [
        samples::samples(),
        edges::edges().into_iter().filter_map(split).collect(),
        orders::orders(),
        repeats::fixed::stored().into_iter().map(named).collect(),
        lists::lists(),
        with_desks.map(named).collect(),
    ];
    lists.concat()
}

/// How many booking lists are put to tidying as they are: with desks they are no stored lists.
const WITH_DESKS: usize = 28;

/// The sheet with its booking list as a stored one.
fn stored(files: Files) -> Files {
    Files {
        bookings: without_desks(&files.bookings),
        ..files
    }
}

/// The cases of one seed: the fixed ones first, then as many random ones as are asked for.
pub fn cases(seed: u64, count: usize) -> impl Iterator<Item = TidyCase> {
    let mut random = Random::new(seed);
    let any = std::iter::repeat_with(move || case(&mut random));
    fixed().into_iter().chain(any).take(count)
}

/// One random case: a sheet that is read, or one with a faulty file.
pub fn case(random: &mut Random) -> TidyCase {
    let is_read = random.chance(5, 6);
    loop {
        let source = super::case(random);
        let Ok(split) = sheet::split(&source.bytes) else {
            continue;
        };
        let mut files = stored(split);
        let read = Setting::read(&files.template, &files.script)
            .and_then(|setting| bookings::read_stored(&setting, &files.bookings));
        match read {
            Ok(booked) if is_read => files.bookings = bookings::stored_words(&repeated(random, booked)),
            Err(_) if !is_read => {}
            _ => continue,
        }
        let mut case = TidyCase::new(source.name, files);
        case.words = buffer(random, case.words, case.files.bookings.len());
        return case;
    }
}

/// The list with bookings put in again, anywhere: none, one, as many as there are, or more.
fn repeated(random: &mut Random, mut booked: Vec<Pair>) -> Vec<Pair> {
    let all = booked.len();
    let more = random.pick(&[0, all.min(1), all, 3 * all]);
    for _ in 0..more.min(usize::from(MOST_BOOKINGS) - all) {
        let pair = random.pick(&booked);
        booked.insert(random.below(booked.len() + 1), pair);
    }
    booked
}

/// The length of a buffer: most often the right one, or that of the stored list.
fn buffer(random: &mut Random, right: usize, stored: usize) -> usize {
    match random.below(16) {
        0 => right + 1,
        1 => right.saturating_sub(random.between(1, 3)),
        2 => random.between(0, 20),
        3 => stored,
        _ => right,
    }
}
