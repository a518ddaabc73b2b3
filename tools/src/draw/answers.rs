//! The answers in the heading of a page: the largest typing, and each desk's smallest, or the pair of 50 and why it
//! isn't met.

use super::cards::{FAULT, INK};
use super::page::{counted, MARGIN, WIDTH};
use super::svg::{Anchor, Svg};
use super::wrap::{cut_off, wrap, Face};
use crate::desk::Desk;
use crate::text::check::Sheet;
use crate::text::reasons::reason;
use crate::text::roots::Roots;
use crate::text::sentences::because;
use crate::typing::Smallest;

/// The letters of the largest typing's answer, and of the desks'.
const PLAIN: Face = Face {
    height: 3.6,
    bold: false,
};
const BOLD: Face = Face {
    height: 3.6,
    bold: true,
};
/// The distance between lines.
const STEP: f64 = 5.2;
/// The gap between two answers on one line.
const GAP: f64 = 6.0;
/// The most lines of a desk's answer, and the widest title of a card in it.
const MOST_LINES: usize = 2;
const WIDEST_TITLE: f64 = 110.0;

/// A sentence and its colour.
type Answer = (String, &'static str);

/// The answers, in lines.
#[derive(Clone, Debug)]
pub struct Answers {
    /// The largest typing's, at the start of the first line.
    largest: String,
    /// Those that have room at the end of the first line.
    beside: Vec<Answer>,
    /// The lines of the others, below it.
    below: Vec<Answer>,
}

impl Answers {
    /// The answers for a sheet.
    pub fn new(sheet: &Sheet) -> Answers {
        let roots = Roots::new(&sheet.setting);
        let largest = largest(sheet);
        let desks = Desk::BOTH.map(|desk| smallest(sheet, &roots, desk));
        let room = WIDTH - 2.0 * MARGIN;
        let fits = |beside: &&[usize]| {
            let widths = beside.iter().map(|desk| GAP + BOLD.width(&desks[*desk].0));
            PLAIN.width(&largest) + widths.sum::<f64>() <= room
        };
        let ways: [&[usize]; 4] = [&[0, 1], &[1], &[0], &[]];
        let chosen = ways.into_iter().find(fits).unwrap_or_default();
        let (mut beside, mut below) = (Vec::new(), Vec::new());
        for (desk, (text, colour)) in desks.into_iter().enumerate() {
            if chosen.contains(&desk) {
                beside.push((text, colour));
            } else {
                let lines = wrap(&text, room, BOLD, MOST_LINES).into_iter();
                below.extend(lines.map(|line| (line, colour)));
            }
        }
        Answers {
            largest,
            beside,
            below,
        }
    }

    /// The height that the lines below the first one take.
    pub fn below(&self) -> f64 {
        STEP * self.below.len() as f64
    }

    /// Draws them, with the middle of the first line at `y`. Tells where the last line is.
    pub fn draw(&self, svg: &mut Svg, y: f64) -> f64 {
        let plain = format!("fill=\"{INK}\"");
        svg.text((MARGIN, y), PLAIN.height, Anchor::Start, &plain, &self.largest);
        let style = |colour: &str| format!("font-weight=\"bold\" fill=\"{colour}\"");
        let widths = self.beside.iter().map(|(text, _)| BOLD.width(text) + GAP);
        let mut end = WIDTH - MARGIN + GAP - widths.sum::<f64>();
        for (text, colour) in &self.beside {
            end += BOLD.width(text);
            svg.text((end, y), BOLD.height, Anchor::End, &style(colour), text);
            end += GAP;
        }
        for (row, (line, colour)) in (1..).zip(&self.below) {
            let place = (MARGIN, y + STEP * f64::from(row));
            svg.text(place, BOLD.height, Anchor::Start, &style(colour), line);
        }
        y + self.below()
    }
}

/// The largest typing in words.
fn largest(sheet: &Sheet) -> String {
    let largest = sheet.typings.largest.0;
    format!(
        "{}, {}.  Largest: {}, {} struck, {} with links and no shape.",
        counted(sheet.text.cards.len(), "card"),
        counted(sheet.text.links.len(), "link"),
        counted(largest.rounds, "round"),
        counted(largest.struck, "pair"),
        counted(largest.bare, "card")
    )
}

/// A desk's smallest typing in words, or the pair of 50 and why it isn't met.
fn smallest(sheet: &Sheet, roots: &Roots, desk: Desk) -> Answer {
    let name = match desk {
        Desk::Radio => "Radio",
        Desk::Television => "Television",
    };
    match sheet.typings.smallest[desk.index()].0 {
        Smallest::Pairs(pairs) => (format!("{name}'s smallest: {}.", counted(pairs, "pair")), INK),
        Smallest::NotMet(card, shape) => {
            let why = reason(sheet, roots, (card, shape));
            let why = why.map_or(String::new(), |why| format!(": {}", because(&sheet.text, &why)));
            let title = cut_off(sheet.text.card_title(card.index()), WIDEST_TITLE, BOLD);
            let shape = sheet.text.shape_name(shape.index());
            (format!("{name}: “{title}” can't be {shape} (50){why}."), FAULT)
        }
    }
}
