//! The sheets that are timed.

use crate::tidying::Listed;
use prep::Desk;
use prep_tools::generate::{heavy, special};
use prep_tools::script::{MOST_CARDS, MOST_LINKS};
use prep_tools::sheet::{self, Files};
use prep_tools::template::MOST_SHAPES;
use prep_tools::typing::bookings::MOST_BOOKINGS;

/// The worked example, as words.
const PROGRAMME: &[u8] = include_bytes!("../../../examples/prep/programme.bin");

/// Half of the linear algorithm's time.
const HALF: Option<f64> = Some(0.5);
/// The linear algorithm's time.
const NO_MORE: Option<f64> = Some(1.0);

/// One sheet.
pub struct Input {
    /// What it is.
    pub name: &'static str,
    /// Its words.
    pub files: Files,
    /// Whether naive rounds end in seconds on it.
    pub naive: bool,
    /// How many times the linear algorithm's time the library should take at most for both typings.
    pub aim: Option<f64>,
}

/// The first sheets on which both typings are timed, for the one desk that books. Only (d) and (e) name links that
/// arrive.
pub fn first() -> Result<Vec<Input>, String> {
    let programme = sheet::split(PROGRAMME).map_err(|refusal| format!("the worked example: {refusal}"))?;
    let input = |name, files, aim| Input {
        name,
        files,
        naive: true,
        aim,
    };
    Ok(vec![
        input("(a) chain of 1,024 cards", special::chain(1024, false), NO_MORE),
        input("(b) densest sheet, all limits", heavy::densest(), HALF),
        Input {
            naive: false,
            ..input("(c) ring of 32,769 rounds", heavy::ring(), HALF)
        },
        input("(d) programme of 41 cards", programme, NO_MORE),
        input("(e) densest, half incoming", heavy::densest_both_ways(), None),
    ])
}

/// Sheets of all limits on which no pair is struck, so that as many pairs are judged as there can be: the shapes of the
/// densest sheet, closed and open, and links of kinds that each of them takes in any number.
pub fn kept() -> [Input; 2] {
    let each = MOST_LINKS / MOST_CARDS;
    let link = |card, kind| [card, kind, (card * each + kind) % MOST_CARDS];
    let links = (0..MOST_CARDS).flat_map(|card| (0..each).flat_map(move |kind| link(card, kind)));
    let script: Vec<u16> = [MOST_CARDS, MOST_LINKS].into_iter().chain(links).collect();
    let input = |name, template| Input {
        name,
        files: Files {
            template,
            script: script.clone(),
            bookings: vec![0],
        },
        naive: false,
        aim: None,
    };
    [
        input("(f) all limits, no pair struck", heavy::densest().template),
        input("(g) the same, all shapes open", heavy::densest_open().template),
    ]
}

/// Further sheets of all limits on which both typings are timed: nested shapes, which are stars over choices, or alls
/// of stars and pluses over alls of links; one card to which all lead; and links below ten wrappers.
pub fn further() -> [Input; 4] {
    let input = |name, files, aim| Input {
        name,
        files,
        naive: true,
        aim,
    };
    [
        input("(h) all limits, choices", heavy::nested::choices(), NO_MORE),
        input(
            "(i) all limits, stars over groups",
            heavy::nested::groups(),
            NO_MORE,
        ),
        input("(j) hub", heavy::hub(), HALF),
        input(
            "(k) ten wrappers around each link",
            heavy::wrapped::wrapped(),
            NO_MORE,
        ),
    ]
}

/// As many stored pairs as can be, all different and all alike, on the densest sheet and on one that is read at once:
/// all cards without links, under shapes that are nothing. A pair is looked for longest where few cards have every
/// shape.
pub fn listed() -> [Listed; 5] {
    let bare = || Files {
        template: special::nothings(MOST_SHAPES),
        script: vec![MOST_CARDS, 0],
        bookings: Vec::new(),
    };
    let each_card = |number| [number, number % MOST_SHAPES];
    let few_cards = |number| [number / MOST_SHAPES, number % MOST_SHAPES];
    [
        different("(b) densest sheet, each card once", heavy::densest(), each_card),
        alike("(b) densest sheet, all alike", heavy::densest()),
        different("1,024 cards without links, each once", bare(), each_card),
        different("the same, 32 cards for 32 shapes", bare(), few_cards),
        alike("the same, all alike", bare()),
    ]
}

/// The sheet with as many stored pairs as can be, these, which are all different.
fn different(name: &'static str, mut files: Files, pair: fn(u16) -> [u16; 2]) -> Listed {
    let pairs = || (0..MOST_BOOKINGS).map(pair);
    files.bookings = [MOST_BOOKINGS].into_iter().chain(pairs().flatten()).collect();
    let kept = pairs().flat_map(|[card, shape]| [Desk::Radio.number(), card, shape]);
    let tidied = [MOST_BOOKINGS].into_iter().chain(kept).collect();
    Listed { name, files, tidied }
}

/// The sheet with the same stored pair as often as can be.
fn alike(name: &'static str, mut files: Files) -> Listed {
    let pairs = (0..MOST_BOOKINGS).flat_map(|_| [MOST_CARDS - 1, 0]);
    files.bookings = [MOST_BOOKINGS].into_iter().chain(pairs).collect();
    let tidied = vec![1, Desk::Radio.number(), MOST_CARDS - 1, 0];
    Listed { name, files, tidied }
}
