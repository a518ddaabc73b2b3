//! What the signs of a picture mean; only those that it has.

use super::cards::{body, chip_at, warning, CardMark, INK};
use super::contents::Content;
use super::layout::Rect;
use super::lists::Line;
use super::measure::{sign_width, width, Chip, Desks, Mark, LIST};
use super::page::SMALL;
use super::picture::BLAME;
use super::svg::{round_path, Anchor, Svg};

/// Where the meaning of a sign stands.
const MEANING: f64 = 34.0;

/// A sign with its meaning.
#[derive(Clone, PartialEq, Debug)]
pub enum Sign {
    /// A chip, with a dot or without, and what a card with it looks like.
    Chip(Mark, bool, &'static str),
    /// The halves of a chip and of a dot.
    Desks,
    /// The end of an open shape's chip.
    Open,
    /// A blank card.
    Blank,
    /// The broad line below arrows.
    Blame,
    /// A line below a card.
    Line(&'static str, &'static str),
}

/// What the chips mean.
const CHIPS: [(Mark, bool, &str); 4] = [
    (Mark::Smallest, false, "in the smallest typing"),
    (Mark::Largest, false, "only in the largest typing"),
    (Mark::None, false, "with links and no shape"),
    (Mark::NotMet, false, "the unmet pair of 50"),
];

/// What the dot means. It is told once, by the first of these chips that the page has.
const DOTS: [(Mark, bool, &str); 3] = [
    (Mark::Booked, true, "booked, but in no typing"),
    (Mark::Smallest, true, "booked"),
    (Mark::Largest, true, "booked, only in the largest"),
];

/// No desk, the radio, and both.
const NONE: Desks = [false, false];
const RADIO: Desks = [true, false];
const BOTH: Desks = [true, true];

/// The signs that a page has; also that of the way to the unmet pair, if an arrow belongs to it.
pub fn signs(contents: &[Content], blames: bool) -> Vec<Sign> {
    let any_chip = |has: &dyn Fn(&Chip) -> bool| {
        let mut chips = contents.iter().flat_map(|content| &content.chips);
        chips.any(has)
    };
    let has = |(mark, booked, _): &&(Mark, bool, &str)| {
        any_chip(&|chip| chip.mark == *mark && (chip.booked != NONE || !booked))
    };
    let chips = CHIPS.iter().filter(has).chain(DOTS.iter().find(has));
    let mut signs: Vec<Sign> = chips
        .map(|(mark, booked, meaning)| Sign::Chip(*mark, *booked, meaning))
        .collect();
    if any_chip(&|chip| chip.desks != NONE || chip.booked != NONE) {
        signs.push(Sign::Desks);
    }
    if any_chip(&|chip| chip.open) {
        signs.push(Sign::Open);
    }
    if contents.iter().any(|content| content.blank) {
        signs.push(Sign::Blank);
    }
    if blames {
        signs.push(Sign::Blame);
    }
    signs.extend(line_signs(contents));
    signs
}

/// The signs of the lines that a page has below its cards.
fn line_signs(contents: &[Content]) -> Vec<Sign> {
    let mut signs = Vec::new();
    let lines: Vec<&Line> = contents.iter().flat_map(|content| &content.lines).collect();
    if lines.iter().any(|line| line.kind.is_some()) {
        let has_page = |line: &&Line| line.kind.is_some() && line.text.contains("p.\u{a0}");
        let text = if lines.iter().any(has_page) {
            "kind → 7 (p.\u{a0}2)"
        } else {
            "kind → 7"
        };
        signs.push(Sign::Line(text, "a link that isn't an arrow"));
    }
    let from_page = |line: &&Line| line.text.starts_with("← from p.");
    if lines.iter().any(from_page) {
        signs.push(Sign::Line("← from p.\u{a0}2", "links from that page lead here"));
    }
    if lines
        .iter()
        .any(|line| line.text.starts_with('←') && !from_page(line))
    {
        signs.push(Sign::Line("← from 7", "links from that card lead here"));
    }
    signs
}

impl Sign {
    fn meaning(&self) -> &'static str {
        match self {
            Sign::Chip(_, _, meaning) | Sign::Line(_, meaning) => meaning,
            Sign::Desks => "left half radio, right television",
            Sign::Open => "an open shape ignores other links",
            Sign::Blank => "a blank card, no shape",
            Sign::Blame => "how a booking asks for it",
        }
    }

    /// The width of the sign with its meaning.
    pub fn width(&self) -> f64 {
        MEANING + width(self.meaning(), SMALL, false)
    }

    /// Draws the sign and its meaning.
    pub fn draw(&self, svg: &mut Svg, (x, y): (f64, f64)) {
        match self {
            Sign::Chip(mark, booked, _) => marked(svg, *mark, *booked, (x, y)),
            Sign::Desks => chip(svg, (Mark::Smallest, RADIO, RADIO), ("Shape", 12.2), (x, y)),
            Sign::Open => chip(svg, (Mark::Largest, NONE, NONE), ("Shape…", 14.8), (x, y)),
            Sign::Blank => {
                let mark = CardMark {
                    blank: true,
                    ..CardMark::default()
                };
                small_card(svg, mark, (x, y));
            }
            Sign::Blame => svg.path(&round_path(&[(x, y), (x + 28.0, y)], 0.0), BLAME),
            Sign::Line(text, _) => {
                svg.text((x, y), LIST, Anchor::Start, &format!("fill=\"{INK}\""), text);
            }
        }
        let style = format!("fill=\"{INK}\"");
        svg.text((x + MEANING, y), SMALL, Anchor::Start, &style, self.meaning());
    }
}

/// A chip with a mark, and before it a small card.
fn marked(svg: &mut Svg, mark: Mark, booked: bool, place: (f64, f64)) {
    let text = match mark {
        Mark::None => ("no shape", 15.0),
        _ => ("Shape", 12.2),
    };
    chip(svg, (mark, BOTH, [booked; 2]), text, place);
    let mark = CardMark {
        bare: mark == Mark::None,
        blank: false,
        not_met: mark == Mark::NotMet,
        needed: mark == Mark::Smallest,
    };
    small_card(svg, mark, place);
}

/// A chip that is so marked for these desks and booked by those, with this text, which has this width.
fn chip(
    svg: &mut Svg,
    (mark, desks, booked): (Mark, Desks, Desks),
    (text, letters): (&str, f64),
    (x, y): (f64, f64),
) {
    let chip = Chip {
        mark,
        desks,
        booked,
        shapes: Vec::new(),
        open: false,
        text: text.to_string(),
        x: 0.0,
        y: 0.0,
        width: letters + sign_width(mark, booked),
    };
    chip_at(svg, &chip, (x + 13.0, y - 1.9));
}

/// A small card whose left side has its middle here.
fn small_card(svg: &mut Svg, mark: CardMark, (x, y): (f64, f64)) {
    let place = Rect {
        x,
        y: y - 1.7,
        width: 10.0,
        height: 3.4,
    };
    body(svg, &place, mark);
    if mark.not_met {
        warning(svg, (x + 3.3, y), 1.25);
    }
}
