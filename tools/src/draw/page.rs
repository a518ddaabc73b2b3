//! The page: title, picture, legend and notes, on A3 landscape.

use super::answers::Answers;
use super::cards::{FAULT, INK, PALE, PAPER};
use super::graph::Arrow;
use super::layout::Layout;
use super::legend::Legend;
use super::picture::picture;
use super::svg::{escape, short, Anchor, Svg, Words};
use super::wrap::{wrap, Face};
use crate::text::check::Sheet;

/// The width of the page.
pub const WIDTH: f64 = 420.0;
/// The height of the page.
pub const HEIGHT: f64 = 297.0;
/// The margin around everything.
pub const MARGIN: f64 = 13.0;
/// The distance between lines below the picture.
pub const LINE: f64 = 4.7;
/// The height of the letters there.
pub const SMALL: f64 = 2.9;
/// The gap between the legend and the notes.
const NOTE_GAP: f64 = 1.6;
/// The largest scale of a picture.
const MOST_SCALE: f64 = 1.5;
/// The letters of the title, if it needs one line, and if it needs more.
const TITLE: [Face; 2] = [
    Face {
        height: 9.0,
        bold: true,
    },
    Face {
        height: 6.4,
        bold: true,
    },
];

/// A page that is drawn.
#[derive(Clone, Debug)]
pub struct Page {
    /// The drawing.
    pub svg: String,
    /// Where its texts stand.
    pub texts: Vec<Words>,
    /// Its picture and the scale of that; none on a page of lists.
    pub picture: Option<(Layout, f64)>,
}

/// What stands around the picture.
#[derive(Clone, Debug)]
pub struct Around<'a> {
    /// The sheet.
    pub sheet: &'a Sheet,
    /// What it comes to.
    pub answers: &'a Answers,
    /// The page's number, from 1, and the count of pages.
    pub number: (usize, usize),
    /// What is left out, in words.
    pub notes: Vec<String>,
    /// The links from a desk's booking to its unmet pair.
    pub blamed: &'a [Arrow],
}

/// The room that a picture has on its page: its upper edge, width and height.
pub fn room(around: &Around, legend: &Legend) -> (f64, f64, f64) {
    let top = heading(&mut Svg::default(), around) + 5.0;
    let notes = note_lines(around);
    let gap = if notes.is_empty() { 0.0 } else { NOTE_GAP };
    let bottom = HEIGHT - MARGIN - (legend.rows + notes.len()) as f64 * LINE - gap - 2.0;
    (top, WIDTH - 2.0 * MARGIN, bottom - top - 4.0)
}

/// A page with a picture.
pub fn page(around: &Around, layout: Layout, legend: &Legend) -> Page {
    let (top, width, height) = room(around, legend);
    let scale = (width / layout.width).min(height / layout.height).min(MOST_SCALE);
    let mut svg = start(around);
    let left = MARGIN + (width - layout.width * scale) / 2.0;
    svg.open((left, top + (height - layout.height * scale) / 2.0), scale);
    picture(&mut svg, &layout, around.blamed);
    svg.close();
    let bottom = top + height + 4.0;
    rule(&mut svg, bottom);
    legend.draw(&mut svg, bottom + 6.0);
    for (row, line) in note_lines(around).iter().enumerate() {
        let y = bottom + 6.0 + LINE * (legend.rows + row) as f64 + NOTE_GAP;
        let style = format!("fill=\"{INK}\"");
        svg.text((MARGIN, y), SMALL, Anchor::Start, &style, line);
    }
    finish(svg, Some((layout, scale)))
}

/// The notes in lines.
fn note_lines(around: &Around) -> Vec<String> {
    let face = Face {
        height: SMALL,
        bold: false,
    };
    let lines = |note: &String| wrap(note, WIDTH - 2.0 * MARGIN, face, 3);
    around.notes.iter().flat_map(lines).collect()
}

/// The start of a page, with its heading.
pub fn start(around: &Around) -> Svg {
    let mut svg = Svg::default();
    svg.raw(&format!(
        "<svg xmlns=\"http://www.w3.org/2000/svg\" width=\"{WIDTH}mm\" height=\"{HEIGHT}mm\" \
         viewBox=\"0 0 {WIDTH} {HEIGHT}\" font-family=\"sans-serif\">"
    ));
    svg.raw(&format!("<title>{}</title>", escape(title(around.sheet))));
    svg.raw(&format!(
        "<defs><pattern id=\"hatch\" width=\"2.4\" height=\"2.4\" patternUnits=\"userSpaceOnUse\" \
         patternTransform=\"rotate(45)\"><path d=\"M0 0V2.4\" stroke=\"{FAULT}\" \
         stroke-width=\"0.5\" opacity=\"0.28\"/></pattern></defs>"
    ));
    svg.rect((0.0, 0.0), (WIDTH, HEIGHT), 0.0, &format!("fill=\"{PAPER}\""));
    heading(&mut svg, around);
    svg
}

/// The end of a page.
pub fn finish(mut svg: Svg, picture: Option<(Layout, f64)>) -> Page {
    svg.raw("</svg>");
    Page {
        svg: svg.out,
        texts: svg.texts,
        picture,
    }
}

fn title(sheet: &Sheet) -> &str {
    sheet.text.title.as_deref().unwrap_or("Prep sheet")
}

/// The title, and below it the answers in words. Tells where the rule below them is.
pub fn heading(svg: &mut Svg, around: &Around) -> f64 {
    let (number, count) = around.number;
    let mut room = WIDTH - 2.0 * MARGIN;
    if count > 1 {
        room -= 40.0;
        let text = format!("page {number} of {count}");
        let style = format!("fill=\"{INK}\"");
        svg.text((WIDTH - MARGIN, 16.5), 4.4, Anchor::End, &style, &text);
    }
    let mut face = TITLE[0];
    let mut lines = wrap(title(around.sheet), room, face, 3);
    if lines.len() > 1 {
        face = TITLE[1];
        lines = wrap(title(around.sheet), room, face, 3);
    }
    let style = format!("font-family=\"serif\" font-weight=\"bold\" fill=\"{INK}\"");
    let mut y = 16.5;
    for line in &lines {
        svg.text((MARGIN, y), face.height, Anchor::Start, &style, line);
        y += face.height * 1.25;
    }
    let below = around.answers.draw(svg, y + 9.1 - face.height * 1.25);
    rule(svg, below + 4.4);
    below + 4.4
}

/// A number with the word for what it counts.
pub fn counted(number: impl std::fmt::Display, word: &str) -> String {
    match number.to_string() {
        one if one == "1" => format!("1 {word}"),
        many => format!("{many} {word}s"),
    }
}

/// A line across the page.
fn rule(svg: &mut Svg, y: f64) {
    svg.path(
        &format!("M{MARGIN} {}H{}", short(y), short(WIDTH - MARGIN)),
        &format!("stroke=\"{PALE}\" stroke-width=\"0.25\""),
    );
}
