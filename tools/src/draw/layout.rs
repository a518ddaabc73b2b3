//! The picture without its page: where cards, chips, arrows and labels stand. Lengths are in millimetres.
//!
//! | here     | what                                                      |
//! |----------|-----------------------------------------------------------|
//! | `frame`  | columns, nets and boxes: all that doesn't depend on size   |
//! | `wires`  | the wires of each channel, with their ends placed         |
//! | `routes` | tracks, widths and the ways of all arrows                 |

pub mod frame;
pub mod routes;
pub mod wires;

use super::contents::Content;
use super::graph::Arrow;
use super::heights::{least_height, settle};
use super::lists::{Line, FACE, INDENT};
use super::measure::{Chip, CHIP, CHIP_GAP, LIST_STEP};
use super::nets::Slot;
use super::plan::Plan;
use crate::text::check::Sheet;
use frame::Frame;
use routes::Routing;

/// A rectangle.
#[derive(Clone, Copy, PartialEq, Debug)]
pub struct Rect {
    /// Its left end.
    pub x: f64,
    /// Its upper edge.
    pub y: f64,
    /// Its width.
    pub width: f64,
    /// Its height.
    pub height: f64,
}

/// A card with what stands below it.
#[derive(Clone, PartialEq, Debug)]
pub struct Block {
    /// Its number in the sheet.
    pub card: usize,
    /// The card itself.
    pub body: Rect,
    /// Its title, in lines.
    pub title: Vec<String>,
    /// Whether it is a blank card with no shape.
    pub blank: bool,
    /// Its chips.
    pub chips: Vec<(Chip, Rect)>,
    /// The lines of links that aren't arrows.
    pub lines: Vec<(Line, Rect)>,
}

/// The way of one arrow.
#[derive(Clone, PartialEq, Debug)]
pub struct Route {
    /// The link.
    pub arrow: Arrow,
    /// Its corners, from its start to its target.
    pub points: Vec<(f64, f64)>,
}

/// The label of a net or a drop.
#[derive(Clone, PartialEq, Debug)]
pub struct Label {
    /// The kind that it names.
    pub kind: usize,
    /// Its text.
    pub text: String,
    /// Where its text starts, or ends.
    pub x: f64,
    /// The middle of its height.
    pub y: f64,
    /// Whether the text ends at `x`.
    pub ends: bool,
}

/// The whole picture.
#[derive(Clone, PartialEq, Debug)]
pub struct Layout {
    /// Its width.
    pub width: f64,
    /// Its height.
    pub height: f64,
    /// A block for each card.
    pub blocks: Vec<Block>,
    /// A route for each link; those of one net stand together.
    pub routes: Vec<Route>,
    /// The labels.
    pub labels: Vec<Label>,
}

/// The picture of a page, for a room whose width is `ratio` times its height.
pub fn layout(sheet: &Sheet, plan: &Plan, contents: &[Content], card_width: f64, ratio: f64) -> Layout {
    let mut frame = Frame::new(plan, contents, card_width);
    let least = frame
        .boxes
        .iter()
        .map(|column| least_height(column))
        .fold(0.0, f64::max);
    // A first try tells the width; then the height or the channels take up what the room has left.
    settle(&mut frame.boxes, least);
    let width = Routing::new(sheet, &frame).width(&frame);
    let height = least.max(width / ratio);
    settle(&mut frame.boxes, height);
    let mut routing = Routing::new(sheet, &frame);
    routing.widen(height * ratio - routing.width(&frame));
    finish(sheet, plan, &frame, &routing, height)
}

/// Writes down where everything stands.
fn finish(sheet: &Sheet, plan: &Plan, frame: &Frame, routing: &Routing, height: f64) -> Layout {
    let mut blocks: Vec<Option<Block>> = vec![None; plan.cards.len()];
    for (number, column) in frame.boxes.iter().enumerate() {
        for one in column {
            let Slot::Card(card) = one.slot else { continue };
            let body = Rect {
                x: routing.column_x(frame, number),
                y: one.top,
                width: frame.card_width,
                height: one.body,
            };
            blocks[card] = Some(block(plan.cards[card], body, &frame.contents[card]));
        }
    }
    let blocks: Vec<Block> = blocks.into_iter().flatten().collect();
    let (mut routes, mut labels) = routing.routes(sheet, frame);
    let drops = routing.drops(sheet, frame, &blocks);
    routes.extend(drops.0);
    labels.extend(drops.1);
    Layout {
        width: routing.width(frame),
        height,
        blocks,
        routes,
        labels,
    }
}

/// A card whose body stands here, with what stands below it.
fn block(card: usize, body: Rect, content: &Content) -> Block {
    let bottom = body.y + body.height;
    let chip = |chip: &Chip| {
        let place = Rect {
            x: body.x + chip.x,
            y: bottom + chip.y,
            width: chip.width,
            height: CHIP,
        };
        (chip.clone(), place)
    };
    let chips: Vec<(Chip, Rect)> = content.chips.iter().map(chip).collect();
    let top = CHIP_GAP
        + chips
            .iter()
            .map(|(_, place)| place.y + CHIP)
            .fold(bottom, f64::max);
    let line = |(number, line): (usize, &Line)| {
        let place = Rect {
            x: body.x + if line.goes_on { INDENT } else { 0.0 },
            y: top + LIST_STEP * number as f64,
            width: FACE.width(&line.text),
            height: LIST_STEP,
        };
        (line.clone(), place)
    };
    Block {
        card,
        body,
        title: content.title.clone(),
        blank: content.blank,
        chips,
        lines: content.lines.iter().enumerate().map(line).collect(),
    }
}
