//! Pages of lists: the shapes, if they have no room below a picture, and where each card stands.

use super::cards::INK;
use super::legend::{shapes_at, wide, SHAPE_SIGNS};
use super::lists::Whole;
use super::page::{finish, heading, start, Around, Page, HEIGHT, LINE, MARGIN, SMALL, WIDTH};
use super::shapes::shape_lines;
use super::svg::{Anchor, Svg};
use super::wrap::{cut_off, Face};

/// The height of a list's heading.
const HEADING: f64 = 5.0;
/// The gap between columns.
const GAP: f64 = 8.0;
/// The width of a column of cards, and of its numbers and pages.
const CARDS: (f64, f64, f64) = (92.0, 10.0, 14.0);
/// The letters of titles of cards.
const FACE: Face = Face {
    height: SMALL,
    bold: false,
};

/// One page of a list.
#[derive(Clone, PartialEq, Debug)]
pub enum Listing {
    /// Shapes: the lines of each column.
    Shapes(Vec<Vec<String>>),
    /// Cards: their numbers, in columns.
    Cards(Vec<Vec<usize>>),
}

/// The room that a page has for a list: its upper edge and its rows.
fn room(around: &Around) -> (f64, usize) {
    let top = heading(&mut Svg::default(), around) + 8.0 + 2.0 * HEADING;
    (top, ((HEIGHT - MARGIN - top) / LINE) as usize)
}

/// The pages of all shapes.
pub fn shape_pages(around: &Around) -> Vec<Listing> {
    let all: Vec<usize> = (0..around.sheet.text.shapes.len()).collect();
    let lines = shape_lines(around.sheet, &all, SHAPE_SIGNS);
    let mut pages: Vec<Vec<Vec<String>>> = Vec::new();
    let mut left = 0.0;
    for column in lines.chunks(room(around).1) {
        let width = wide(column) + GAP;
        match pages.last_mut() {
            Some(page) if width - GAP <= left => page.push(column.to_vec()),
            _ => {
                left = WIDTH - 2.0 * MARGIN;
                pages.push(vec![column.to_vec()]);
            }
        }
        left -= width;
    }
    pages.into_iter().map(Listing::Shapes).collect()
}

/// The pages that tell where each of these cards stands.
pub fn card_pages(around: &Around, cards: &[usize]) -> Vec<Listing> {
    let columns: Vec<Vec<usize>> = cards.chunks(room(around).1).map(<[usize]>::to_vec).collect();
    let in_row = ((WIDTH - 2.0 * MARGIN + GAP) / (CARDS.0 + GAP)) as usize;
    columns
        .chunks(in_row)
        .map(|columns| Listing::Cards(columns.to_vec()))
        .collect()
}

/// Draws a page of a list.
pub fn draw(around: &Around, whole: &Whole, listing: &Listing) -> Page {
    let mut svg = start(around);
    let (top, _) = room(around);
    let style = format!("font-family=\"serif\" font-weight=\"bold\" fill=\"{INK}\"");
    let heading = match listing {
        Listing::Shapes(_) => "The shapes",
        Listing::Cards(_) => "Where each card stands",
    };
    let place = (MARGIN, top - 2.0 * HEADING + 1.0);
    svg.text(place, HEADING, Anchor::Start, &style, heading);
    let mut x = MARGIN;
    match listing {
        Listing::Shapes(columns) => {
            for lines in columns {
                shapes_at(&mut svg, lines, (x, top));
                x += wide(lines) + GAP;
            }
        }
        Listing::Cards(columns) => {
            for cards in columns {
                cards_at(&mut svg, whole, cards, (x, top));
                x += CARDS.0 + GAP;
            }
        }
    }
    finish(svg, None)
}

/// A column of cards: number, title and page.
fn cards_at(svg: &mut Svg, whole: &Whole, cards: &[usize], (x, top): (f64, f64)) {
    let style = format!("fill=\"{INK}\"");
    for (row, card) in cards.iter().enumerate() {
        let y = top + LINE * row as f64;
        let title = whole.sheet.text.card_title(*card);
        let title = cut_off(title, CARDS.0 - CARDS.1 - CARDS.2, FACE);
        let page = whole.page_of[*card].map_or(String::new(), |page| format!("p. {page}"));
        svg.text(
            (x + CARDS.1 - 2.0, y),
            SMALL,
            Anchor::End,
            &style,
            &card.to_string(),
        );
        svg.text((x + CARDS.1, y), SMALL, Anchor::Start, &style, &title);
        svg.text((x + CARDS.0, y), SMALL, Anchor::End, &style, &page);
    }
}
