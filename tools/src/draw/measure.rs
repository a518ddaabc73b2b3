//! The size of texts, chips and cards, in millimetres of the picture. Texts are measured for a wide sans-serif
//! face, so that they fit whichever face is there.

use super::lists::Line;
use super::shapes::{is_open, shape_title};
use super::wrap::{cut_off, wrap, Face};
use crate::desk::Desk;
use crate::numbers::{Card, Shape};
use crate::text::check::Sheet;
use crate::typing::Pair;

/// The height of a card's title.
pub const TITLE: f64 = 3.6;
/// The distance between the lines of a title.
pub const TITLE_STEP: f64 = 4.3;
/// The most lines of a title.
const TITLE_LINES: usize = 4;
/// Where a title starts within its card.
pub const TITLE_LEFT: f64 = 4.6;
/// Where it starts beside a warning.
pub const TITLE_AFTER_WARNING: f64 = 8.6;
/// The height of a label's letters.
pub const LABEL: f64 = 2.85;
/// The height of a chip's letters.
pub const CHIP_TEXT: f64 = 2.65;
/// The height of a chip.
pub const CHIP: f64 = 3.8;
/// The gap between chips, and between a card and its chips.
pub const CHIP_GAP: f64 = 0.9;
/// The height of the letters of a line below the chips.
pub const LIST: f64 = 2.6;
/// The distance between such lines.
pub const LIST_STEP: f64 = 3.4;
/// The least height of a card.
pub const CARD: f64 = 7.4;
/// The least height that an arrow's end takes at a card's side.
pub const PORT: f64 = 3.4;
/// How far from a card's right side a drop runs.
pub const DROP: f64 = 4.5;
/// From so many shapes on, a card that has all of them says so in one chip.
const MANY_SHAPES: usize = 7;
/// The width of cards some of which have this many chips or more.
const MANY_CHIPS: (usize, f64) = (5, 42.0);
/// The widest label of an arrow.
pub const WIDEST_LABEL: f64 = 30.0;

/// The letters of labels.
pub const LABEL_FACE: Face = Face {
    height: LABEL,
    bold: true,
};
/// The letters of titles.
pub const TITLE_FACE: Face = Face {
    height: TITLE,
    bold: true,
};
/// The letters of chips.
const CHIP_FACE: Face = Face {
    height: CHIP_TEXT,
    bold: false,
};

/// How a shape of a card is marked.
#[derive(Clone, Copy, PartialEq, Eq, PartialOrd, Ord, Debug)]
pub enum Mark {
    /// The unmet pair of some desk's 50.
    NotMet,
    /// Some desk's smallest typing has it.
    Smallest,
    /// Booked, but in no typing.
    Booked,
    /// Only the largest typing has it.
    Largest,
    /// The card has links and no shape at all.
    None,
}

/// For each desk, whether something is so for it.
pub type Desks = [bool; 2];

/// A chip below a card, relative to the card's left end and the lower edge of its body.
#[derive(Clone, PartialEq, Debug)]
pub struct Chip {
    /// How it is marked.
    pub mark: Mark,
    /// The desks for which it is so marked, if that is up to them.
    pub desks: Desks,
    /// The desks that book the pair.
    pub booked: Desks,
    /// The shapes that it names.
    pub shapes: Vec<usize>,
    /// Whether it names one shape and that is open.
    pub open: bool,
    /// Its text.
    pub text: String,
    /// Its left end.
    pub x: f64,
    /// Its upper edge.
    pub y: f64,
    /// Its width.
    pub width: f64,
}

/// The width of a text of this height.
pub fn width(text: &str, height: f64, bold: bool) -> f64 {
    let letters: f64 = text
        .chars()
        .map(|letter| match letter {
            'i' | 'j' | 'l' | '.' | ',' | ':' | ';' | '\'' | '|' | '!' => 0.34,
            ' ' | '\u{a0}' | '(' | ')' | '[' | ']' | 'f' | 't' | 'r' | '-' | '1' => 0.42,
            'm' | 'w' | 'M' | 'W' | '@' | '%' | '…' | '→' | '←' => 0.95,
            // Signs of East Asian scripts are as wide as they are high.
            '\u{1100}'.. => 1.05,
            letter if letter.is_uppercase() => 0.72,
            _ => 0.62,
        })
        .sum();
    letters * height * if bold { 1.1 } else { 1.0 }
}

/// The width of all cards: that of the longest title, within bounds, and more if some have many chips.
pub fn card_width(sheet: &Sheet, least: f64) -> f64 {
    let cards = 0..sheet.text.cards.len();
    let longest = cards
        .clone()
        .map(|card| title_left(sheet, card) + TITLE_FACE.width(sheet.text.card_title(card)) + 8.4)
        .fold(0.0, f64::max);
    let many = cards
        .clone()
        .any(|card| shapes(sheet, card).len() >= MANY_CHIPS.0);
    longest.clamp(if many { least.max(MANY_CHIPS.1) } else { least }, 56.0)
}

/// The room of chips and lines below a card; right of it runs the drop.
pub fn room_below(card_width: f64) -> f64 {
    card_width - DROP - 3.0
}

/// The title of a card in lines within the card's width.
pub fn title_lines(sheet: &Sheet, card: usize, card_width: f64) -> Vec<String> {
    let room = card_width - title_left(sheet, card) - 7.4;
    wrap(sheet.text.card_title(card), room, TITLE_FACE, TITLE_LINES)
}

/// Where the title of a card starts.
fn title_left(sheet: &Sheet, card: usize) -> f64 {
    match sheet.all_not_met().any(|(_, (warned, _))| warned.index() == card) {
        true => TITLE_AFTER_WARNING,
        false => TITLE_LEFT,
    }
}

/// The height that the lines of a title need.
pub fn title_height(lines: usize) -> f64 {
    CARD.max(3.6 + TITLE_STEP * lines as f64)
}

/// The chips of a card, in rows within the card's width.
pub fn chips(sheet: &Sheet, card: usize, card_width: f64) -> Vec<Chip> {
    let mut chips = Vec::new();
    let (mut x, mut y) = (0.0, CHIP_GAP);
    let room = room_below(card_width);
    for shown in shapes(sheet, card) {
        let Shown {
            mark, desks, booked, ..
        } = shown;
        let around = 3.2 + sign_width(mark, booked);
        let text = cut_off(&shown.text, room - around, CHIP_FACE);
        let width = CHIP_FACE.width(&text) + around;
        if x > 0.0 && x + width > room {
            x = 0.0;
            y += CHIP + CHIP_GAP;
        }
        chips.push(Chip {
            mark,
            desks,
            booked,
            open: matches!(shown.shapes[..], [shape] if is_open(sheet, shape)),
            shapes: shown.shapes,
            text,
            x,
            y,
            width,
        });
        x += width + CHIP_GAP;
    }
    chips
}

/// The width of the sign before a chip's text.
pub fn sign_width(mark: Mark, booked: Desks) -> f64 {
    match mark {
        Mark::NotMet | Mark::None => 3.6,
        _ if booked.contains(&true) => 2.6,
        _ => 0.0,
    }
}

/// The height that chips and lines take below a card's body.
pub fn height_below(chips: &[Chip], lines: &[Line]) -> f64 {
    let chips = chips.iter().map(|chip| chip.y + CHIP).fold(0.0, f64::max);
    if lines.is_empty() {
        return chips;
    }
    chips + CHIP_GAP + LIST_STEP * lines.len() as f64
}

/// What a chip shows: its marks, its shapes and its text.
struct Shown {
    mark: Mark,
    desks: Desks,
    booked: Desks,
    shapes: Vec<usize>,
    text: String,
}

/// The shapes to show beside a card: first the smallest's, then what only the largest has, then faults.
fn shapes(sheet: &Sheet, card: usize) -> Vec<Shown> {
    let card = Card(card as u16);
    let pairs = (0..sheet.typings.shapes).map(|shape| (card, Shape(shape)));
    let mut shown: Vec<Shown> = pairs.filter_map(|pair| shape(sheet, pair)).collect();
    if sheet.bare(card.index()) {
        shown.push(Shown {
            mark: Mark::None,
            desks: [false; 2],
            booked: [false; 2],
            shapes: Vec::new(),
            text: "no shape".to_string(),
        });
    }
    shown.sort_by_key(|one| one.mark);
    together(shown, sheet.text.shapes.len())
}

/// How a pair is shown; none if it is in no typing and not booked.
fn shape(sheet: &Sheet, pair: Pair) -> Option<Shown> {
    let booked = Desk::BOTH.map(|desk| sheet.booked.contains(&(desk, pair)));
    let needed = Desk::BOTH.map(|desk| sheet.needed_by(desk, pair));
    let not_met = Desk::BOTH.map(|desk| sheet.not_met(desk) == Some(pair));
    let (mark, desks) = if not_met.contains(&true) {
        (Mark::NotMet, not_met)
    } else if needed.contains(&true) {
        (Mark::Smallest, needed)
    } else if sheet.has(&sheet.typings.largest.1, pair) {
        (Mark::Largest, [false; 2])
    } else if booked.contains(&true) {
        (Mark::Booked, [false; 2])
    } else {
        return None;
    };
    let shape = pair.1.index();
    Some(Shown {
        mark,
        desks,
        booked,
        shapes: vec![shape],
        text: shape_title(sheet, shape),
    })
}

/// One chip for many that only say that a typing has all shapes: some desk's smallest, or else the largest.
fn together(shown: Vec<Shown>, count: usize) -> Vec<Shown> {
    let has = |one: &&Shown| matches!(one.mark, Mark::Smallest | Mark::Largest);
    if count < MANY_SHAPES || shown.iter().filter(has).count() < count {
        return shown;
    }
    let all_are = |so: fn(&Shown) -> Desks| [0, 1].map(|desk| shown.iter().all(|one| so(one)[desk]));
    let desks = all_are(|one| one.desks);
    let all = Shown {
        mark: match desks {
            [false, false] => Mark::Largest,
            _ => Mark::Smallest,
        },
        desks,
        booked: all_are(|one| one.booked),
        shapes: (0..count).collect(),
        text: format!("all {count} shapes"),
    };
    let says_more = |one: &Shown| (one.mark, one.desks, one.booked) != (all.mark, all.desks, all.booked);
    let mut kept: Vec<Shown> = shown.into_iter().filter(says_more).collect();
    kept.push(all);
    kept
}
