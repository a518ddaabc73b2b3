//! Cards, chips and their marks.

use super::layout::{Block, Rect};
use super::measure::{Chip, Desks, Mark, CHIP, CHIP_TEXT, LIST};
use super::measure::{TITLE, TITLE_AFTER_WARNING, TITLE_LEFT, TITLE_STEP};
use super::strokes::colour;
use super::svg::{short, Anchor, Svg};

/// The colour of letters and of what is sure.
pub const INK: &str = "#26313f";
/// The colour of what stands back.
pub const PALE: &str = "#8a93a0";
/// The colour of faults.
pub const FAULT: &str = "#c01f1f";
/// The colour of a blank card.
const BLANK: &str = "#f3f0e6";
/// The colour of the half of a filled chip that is another desk's.
const OTHER_DESK: &str = "#737d8a";
/// The colour of the page.
pub const PAPER: &str = "#fcfaf4";

/// How a card as a whole is marked.
#[derive(Clone, Copy, PartialEq, Eq, Default, Debug)]
pub struct CardMark {
    /// It has links and no shape at all.
    pub bare: bool,
    /// It is blank and has no shape.
    pub blank: bool,
    /// It has the unmet pair of some desk's 50.
    pub not_met: bool,
    /// Some desk's smallest typing gives it a shape.
    pub needed: bool,
}

/// A card with its title, its number and what stands below it.
pub fn card(svg: &mut Svg, block: &Block, mark: CardMark) {
    body(svg, &block.body, mark);
    let Rect { x, y, width, height } = block.body;
    let style = format!("font-weight=\"bold\" fill=\"{INK}\"");
    let left = if mark.not_met {
        TITLE_AFTER_WARNING
    } else {
        TITLE_LEFT
    };
    let top = y + height / 2.0 - TITLE_STEP * (block.title.len() as f64 - 1.0) / 2.0;
    for (number, line) in block.title.iter().enumerate() {
        let place = (x + left, top + TITLE_STEP * number as f64);
        svg.text(place, TITLE, Anchor::Start, &style, line);
    }
    let style = format!("fill=\"{PALE}\"");
    let place = (x + width - 1.6, y + 2.3);
    svg.text(place, 2.4, Anchor::End, &style, &block.card.to_string());
    for (chip, place) in &block.chips {
        chip_at(svg, chip, (place.x, place.y));
    }
    for (line, place) in &block.lines {
        let style = format!("fill=\"{}\"", line.kind.map_or(INK, colour));
        let middle = place.y + place.height / 2.0;
        svg.text((place.x, middle), LIST, Anchor::Start, &style, &line.text);
    }
    if mark.not_met {
        warning(svg, (x + 4.9, y + height / 2.0), 2.5);
    }
}

/// The body of a card.
pub fn body(svg: &mut Svg, place: &Rect, mark: CardMark) {
    let corner = (place.x, place.y);
    let size = (place.width, place.height);
    svg.rect(
        (corner.0 + 0.5, corner.1 + 0.7),
        size,
        1.4,
        "fill=\"#3b2f1e\" opacity=\"0.10\"",
    );
    let mut fill = |colour: &str| svg.rect(corner, size, 1.4, &format!("fill=\"{colour}\""));
    fill("#ffffff");
    match mark {
        CardMark { bare: true, .. } => fill("url(#hatch)"),
        CardMark { blank: true, .. } => fill(BLANK),
        CardMark { needed: true, .. } => band(svg, place, INK),
        _ => band(svg, place, "#cfd5dc"),
    }
    svg.rect(corner, size, 1.4, &format!("fill=\"none\" {}", edge(mark)));
}

/// The band along the left side of a card.
fn band(svg: &mut Svg, place: &Rect, colour: &str) {
    let (x, y, h) = (short(place.x), short(place.y), short(place.height));
    svg.path(
        &format!(
            "M{x} {y}m1.4 0h1.2v{h}h-1.2a1.4 1.4 0 0 1 -1.4 -1.4v-{}a1.4 1.4 0 0 1 1.4 -1.4z",
            short(place.height - 2.8)
        ),
        &format!("fill=\"{colour}\""),
    );
}

/// The edge of a card.
fn edge(mark: CardMark) -> String {
    let dashed =
        |colour: &str| format!("stroke=\"{colour}\" stroke-width=\"0.45\" stroke-dasharray=\"1.6 1.1\"");
    match mark {
        CardMark { not_met: true, .. } => format!("stroke=\"{FAULT}\" stroke-width=\"1\""),
        CardMark { bare: true, .. } => dashed(FAULT),
        CardMark { blank: true, .. } => dashed(PALE),
        _ => format!("stroke=\"{INK}\" stroke-width=\"0.35\""),
    }
}

/// A chip.
pub fn chip_at(svg: &mut Svg, chip: &Chip, (x, y): (f64, f64)) {
    let colour = chip_box(svg, chip, (x, y));
    let middle = y + CHIP / 2.0;
    let mut start = x + 1.6;
    match chip.mark {
        Mark::NotMet => {
            cross(svg, (x + 2.9, middle), 1.0, colour);
            start += 3.2;
        }
        Mark::None => {
            empty(svg, (x + 2.9, middle), 1.15, colour);
            start += 3.2;
        }
        _ if chip.booked.contains(&true) => {
            dot(svg, (x + 2.4, middle), chip.booked, colour);
            start += 2.3;
        }
        _ => {}
    }
    // The rest of the chip is the text's, whatever its true width.
    let centre = (start + x + chip.width - 1.6) / 2.0;
    let style = format!("fill=\"{colour}\"");
    svg.text((centre, middle), CHIP_TEXT, Anchor::Middle, &style, &chip.text);
}

/// The box of a chip, filled for the desks for which it is marked: the left half for the radio, the right half for the
/// television. Tells the colour of what stands in it.
fn chip_box(svg: &mut Svg, chip: &Chip, place: (f64, f64)) -> &'static str {
    let size = (chip.width, CHIP);
    let mut outline = |colour: &str, more: &str| {
        let style = format!("fill=\"{PAPER}\" stroke=\"{colour}\" stroke-width=\"0.3\" {more}");
        svg.rect(place, size, CHIP / 2.0, &style);
    };
    let filled = match chip.mark {
        Mark::Smallest => INK,
        Mark::NotMet => FAULT,
        Mark::Largest => {
            outline(INK, "");
            return INK;
        }
        Mark::Booked | Mark::None => {
            outline(FAULT, "stroke-dasharray=\"1 0.7\"");
            return FAULT;
        }
    };
    let [left, right] = chip.desks.map(|marked| if marked { filled } else { OTHER_DESK });
    let style = format!("fill=\"{right}\" stroke=\"{filled}\" stroke-width=\"0.3\"");
    svg.rect(place, size, CHIP / 2.0, &style);
    if left != right {
        left_half(svg, place, size, left);
    }
    "#ffffff"
}

/// The left half of a box whose ends are round.
fn left_half(svg: &mut Svg, (x, y): (f64, f64), (width, height): (f64, f64), colour: &str) {
    let radius = height / 2.0;
    let (middle, start, end) = (short(x + width / 2.0), short(x + radius), short(y + height));
    let (top, round) = (short(y), short(radius));
    svg.path(
        &format!("M{middle} {top}H{start}A{round} {round} 0 0 0 {start} {end}H{middle}Z"),
        &format!("fill=\"{colour}\""),
    );
}

/// The sign of a booking: a dot, of which the left half is the radio's and the right half the television's.
fn dot(svg: &mut Svg, (x, y): (f64, f64), desks: Desks, colour: &str) {
    const RADIUS: f64 = 0.8;
    if desks == [true; 2] {
        return svg.circle((x, y), RADIUS, &format!("fill=\"{colour}\""));
    }
    let ring = format!("fill=\"none\" stroke=\"{colour}\" stroke-width=\"0.2\"");
    svg.circle((x, y), RADIUS, &ring);
    let (across, top, bottom) = (short(x), short(y - RADIUS), short(y + RADIUS));
    let turn = if desks[0] { 0 } else { 1 };
    svg.path(
        &format!("M{across} {top}A{RADIUS} {RADIUS} 0 0 {turn} {across} {bottom}Z"),
        &format!("fill=\"{colour}\""),
    );
}

/// The sign of a pair that isn't met.
fn cross(svg: &mut Svg, (x, y): (f64, f64), reach: f64, colour: &str) {
    let (left, right) = (short(x - reach), short(x + reach));
    let (top, bottom) = (short(y - reach), short(y + reach));
    svg.path(
        &format!("M{left} {top}L{right} {bottom}M{left} {bottom}L{right} {top}"),
        &format!("stroke=\"{colour}\" stroke-width=\"0.55\" stroke-linecap=\"round\" fill=\"none\""),
    );
}

/// The sign of no shape: a circle with a stroke through it.
fn empty(svg: &mut Svg, (x, y): (f64, f64), radius: f64, colour: &str) {
    let style = format!("stroke=\"{colour}\" stroke-width=\"0.35\" fill=\"none\"");
    svg.circle((x, y), radius, &style);
    let reach = radius * 0.72;
    svg.path(
        &format!(
            "M{} {}L{} {}",
            short(x - reach),
            short(y + reach),
            short(x + reach),
            short(y - reach)
        ),
        &style,
    );
}

/// The sign of a card with the unmet pair.
pub fn warning(svg: &mut Svg, (x, y): (f64, f64), radius: f64) {
    svg.circle((x, y), radius, &format!("fill=\"{FAULT}\""));
    svg.path(
        &format!(
            "M{} {}v{}",
            short(x),
            short(y - radius * 0.55),
            short(radius * 0.62)
        ),
        &format!(
            "stroke=\"#ffffff\" stroke-width=\"{}\" stroke-linecap=\"round\"",
            short(radius * 0.28)
        ),
    );
    svg.circle((x, y + radius * 0.54), radius * 0.16, "fill=\"#ffffff\"");
}
