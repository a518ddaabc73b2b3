//! The legend below a picture: the kinds, signs and shapes that are on the page, and the shapes that these name, in as
//! few rows as the page's width allows. Shapes that take too many rows stand on pages of their own.

use super::cards::INK;
use super::contents::Content;
use super::graph::Arrow;
use super::page::{LINE, MARGIN, SMALL, WIDTH};
use super::picture::shortened;
use super::plan::Plan;
use super::shapes::shape_lines;
use super::signs::{signs, Sign};
use super::strokes::{colour, stroke};
use super::svg::{head, round_path, Anchor, Svg, MONOSPACE};
use super::wrap::{cut_off, Face};
use crate::text::check::Sheet;
use std::collections::BTreeSet;

/// The height of the letters of shapes.
pub const SHAPE: f64 = 2.7;
/// The most signs on one line of a shape.
pub const SHAPE_SIGNS: usize = 104;
/// The most rows.
const MOST_ROWS: usize = 16;
/// The widest name of a kind.
const WIDEST_KIND: f64 = 60.0;
/// The room of an arrow before the name of its kind, and of the gap behind it.
const KIND_ARROW: (f64, f64) = (10.8, 3.2);
/// The gap between columns of shapes.
const GAP: f64 = 8.0;
/// The letters of kinds.
const KIND_FACE: Face = Face {
    height: SMALL,
    bold: true,
};

/// What the legend of a page shows.
#[derive(Clone, Debug)]
pub struct Legend {
    /// The kinds, with their names as far as they fit.
    kinds: Vec<(usize, String)>,
    /// The signs.
    signs: Vec<Sign>,
    /// The lines of the shapes.
    shapes: Vec<String>,
    /// How many rows it has.
    pub rows: usize,
    /// Whether the shapes have to stand on a page of their own.
    pub shapes_elsewhere: bool,
}

impl Legend {
    /// The legend of a page. The links in `blamed` are those from a desk's booking to its unmet pair.
    pub fn new(sheet: &Sheet, plan: &Plan, contents: &[Content], blamed: &[Arrow]) -> Legend {
        let chips = contents.iter().flat_map(|content| &content.chips);
        let shapes = with_named(sheet, chips.flat_map(|chip| chip.shapes.clone()).collect());
        let name = |kind: usize| {
            let name = cut_off(&sheet.text.kinds[kind].text, WIDEST_KIND, KIND_FACE);
            (kind, name)
        };
        let mut legend = Legend {
            kinds: kinds_of(plan, contents).into_iter().map(name).collect(),
            signs: signs(contents, plan.arrows().any(|arrow| blamed.contains(&arrow))),
            shapes: shape_lines(sheet, &shapes, SHAPE_SIGNS),
            rows: 0,
            shapes_elsewhere: false,
        };
        legend.set_rows();
        legend
    }

    /// As few rows as fit the page; without the shapes, if they don't.
    fn set_rows(&mut self) {
        let room = WIDTH - 2.0 * MARGIN;
        let fits = |legend: &Legend| (1..=MOST_ROWS).find(|rows| legend.width(*rows) <= room);
        self.rows = fits(self).unwrap_or_else(|| {
            self.shapes.clear();
            self.shapes_elsewhere = true;
            fits(self).unwrap_or(MOST_ROWS)
        });
    }

    /// The width of everything in so many rows.
    fn width(&self, rows: usize) -> f64 {
        let signs = self.signs.len().div_ceil(rows) as f64 * self.sign_width();
        let shapes: f64 = self.shapes.chunks(rows).map(|lines| GAP + wide(lines)).sum();
        self.signs_left(rows) + signs + shapes
    }

    fn kind_width(&self) -> f64 {
        let names = self.kinds.iter().map(|(_, name)| KIND_FACE.width(name));
        names.fold(10.0, f64::max) + KIND_ARROW.0 + KIND_ARROW.1
    }

    /// Where the signs start.
    fn signs_left(&self, rows: usize) -> f64 {
        match self.kinds.len().div_ceil(rows) {
            0 => 0.0,
            columns => self.kind_width() * columns as f64 + 4.0,
        }
    }

    fn sign_width(&self) -> f64 {
        self.signs.iter().map(Sign::width).fold(0.0, f64::max) + 6.0
    }

    /// Draws it, with the middle of its first row at `top`.
    pub fn draw(&self, svg: &mut Svg, top: f64) {
        let columns = self.kinds.len().div_ceil(self.rows);
        // Columns of about the same height.
        let rows = self.kinds.len().div_ceil(columns.max(1)).max(1);
        for (number, (kind, name)) in self.kinds.iter().enumerate() {
            let x = MARGIN + self.kind_width() * (number / rows) as f64;
            kind_at(svg, *kind, name, (x, top + LINE * (number % rows) as f64));
        }
        let left = MARGIN + self.signs_left(self.rows);
        for (number, sign) in self.signs.iter().enumerate() {
            let x = left + self.sign_width() * (number / self.rows) as f64;
            sign.draw(svg, (x, top + LINE * (number % self.rows) as f64));
        }
        let mut right = WIDTH - MARGIN;
        for lines in self.shapes.chunks(self.rows).rev() {
            let x = right - wide(lines);
            shapes_at(svg, lines, (x, top));
            right = x - GAP;
        }
    }
}

/// The kinds of a page's arrows, and of the links that stand in lines beside them. Where all links do, each line says
/// its kind.
fn kinds_of(plan: &Plan, contents: &[Content]) -> BTreeSet<usize> {
    let arrows = plan.graph.arrows.iter().map(|arrow| arrow.kind);
    let mut kinds: BTreeSet<usize> = arrows.collect();
    if !kinds.is_empty() {
        let lines = contents.iter().flat_map(|content| &content.lines);
        kinds.extend(lines.filter_map(|line| line.kind));
    }
    kinds
}

/// Some shapes, and those that they name for the cards at the far ends of links, and so on.
fn with_named(sheet: &Sheet, mut shapes: BTreeSet<usize>) -> Vec<usize> {
    let named = sheet.setting.template.named();
    let mut waiting: Vec<usize> = shapes.iter().copied().collect();
    while let Some(shape) = waiting.pop() {
        let far = named[shape].values().iter().flatten().map(|far| far.index());
        waiting.extend(far.filter(|far| shapes.insert(*far)));
    }
    shapes.into_iter().collect()
}

/// An arrow of a kind, and its name.
fn kind_at(svg: &mut Svg, kind: usize, name: &str, (x, y): (f64, f64)) {
    let points = [(x, y), (x + 9.0, y)];
    svg.path(
        &round_path(&shortened(&points), 0.0),
        &format!("{} stroke-width=\"0.5\" fill=\"none\"", stroke(kind)),
    );
    svg.path(&head(&points, 2.5), &format!("fill=\"{}\"", colour(kind)));
    let style = format!(
        "font-weight=\"bold\" font-style=\"italic\" fill=\"{}\"",
        colour(kind)
    );
    svg.text((x + KIND_ARROW.0, y), SMALL, Anchor::Start, &style, name);
}

/// The width of lines of shapes.
pub fn wide(lines: &[String]) -> f64 {
    let signs = lines.iter().map(|line| line.chars().count());
    signs.max().unwrap_or(0) as f64 * SHAPE * MONOSPACE
}

/// Lines of shapes, one below the other.
pub fn shapes_at(svg: &mut Svg, lines: &[String], (x, top): (f64, f64)) {
    let style = format!("font-family=\"monospace\" fill=\"{INK}\" xml:space=\"preserve\"");
    for (row, line) in lines.iter().enumerate() {
        let y = top + LINE * row as f64;
        svg.text((x, y), SHAPE, Anchor::Start, &style, line);
    }
}
