//! A sheet and its typings as a drawing, in SVG: one A3 page, or several.
//!
//! Cards stand in columns. Between two columns lies a channel; arrows turn only there, each on a track of its own,
//! and pass a column only through a slot kept free between two cards. So no arrow runs through a card.
//!
//! | here       | what                                                                      |
//! |------------|---------------------------------------------------------------------------|
//! | `choice`   | which cards are drawn                                                     |
//! | `graph`    | cards and links; which kinds run down a column in sequence                |
//! | `share`    | shares out cards among pages                                              |
//! | `plan`     | the pages: their cards, arrows and columns                                |
//! | `lists`    | links that aren't arrows, as lines below their cards                      |
//! | `contents` | what each card has to show                                                |
//! | `columns`  | the column of each card                                                   |
//! | `fold`     | how columns share a page                                                  |
//! | `nets`     | links of one kind from one card, drawn together; slots where they pass    |
//! | `order`    | the order of cards and slots within a column                              |
//! | `measure`  | the size of texts, chips and cards                                        |
//! | `wrap`     | texts cut into lines                                                      |
//! | `heights`  | how high each card and slot stands                                        |
//! | `ports`    | where arrows leave and enter a card                                       |
//! | `tracks`   | the tracks of a channel                                                   |
//! | `layout`   | all of this together: the picture without its page                        |
//! | `verify`   | whether an arrow runs through a card, or a text stands over a text        |
//! | `svg`      | writes shapes and texts                                                   |
//! | `strokes`  | colours and dashes of the kinds                                           |
//! | `cards`    | cards, chips and their marks                                              |
//! | `picture`  | draws arrows, labels and cards                                            |
//! | `signs`    | what the signs of a picture mean                                          |
//! | `shapes`   | shapes as lines of text                                                   |
//! | `legend`   | the legend below a picture                                                |
//! | `answers`  | what the heading says about the typings                                   |
//! | `page`     | the page: title, picture, legend, notes                                   |
//! | `listing`  | pages of lists: shapes, and where each card stands                        |

pub mod answers;
pub mod cards;
pub mod choice;
pub mod columns;
pub mod contents;
pub mod fold;
pub mod graph;
pub mod heights;
pub mod layout;
pub mod legend;
pub mod listing;
pub mod lists;
pub mod measure;
pub mod nets;
pub mod order;
pub mod page;
pub mod picture;
pub mod plan;
pub mod ports;
pub mod shapes;
pub mod share;
pub mod signs;
pub mod strokes;
pub mod svg;
pub mod tracks;
pub mod verify;
pub mod wrap;

use crate::desk::Desk;
use crate::labels::{Label, Way};
use crate::numbers::Card;
use crate::text::check::Sheet;
use crate::text::reasons::path;
use crate::typing::Pair;
use answers::Answers;
use choice::Choice;
use graph::{Arrow, Graph};
use layout::{layout, Layout};
use legend::Legend;
use listing::Listing;
use lists::{Lists, Whole};
use page::{counted, Around, Page};
use plan::Plan;

/// A drawing.
#[derive(Clone, Debug)]
pub struct Drawing {
    /// Its pages.
    pub pages: Vec<Page>,
    /// A tally of the links that aren't arrows.
    pub tally: Tally,
}

/// How many links are shown how.
#[derive(Clone, Copy, PartialEq, Eq, Default, Debug)]
pub struct Tally {
    /// As arrows.
    pub arrows: usize,
    /// In lines below their cards.
    pub listed: usize,
    /// Not at all, for want of room.
    pub left_out: usize,
}

/// The drawing of the chosen cards of a sheet.
pub fn draw(sheet: &Sheet, choice: Choice) -> Drawing {
    let (graph, answers) = (Graph::new(sheet), Answers::new(sheet));
    let mut whole = Whole {
        sheet,
        answers: &answers,
        page_of: vec![None; graph.cards],
        graph,
    };
    let cards = choice.cards(sheet, &whole.graph);
    let (plans, card_width) = plan::plans(&mut whole, &cards);
    let blamed = blamed(sheet);
    let around = Around {
        sheet,
        answers: &answers,
        number: (1, 99),
        notes: choice_note(&whole, choice, cards.len()).into_iter().collect(),
        blamed: &blamed,
    };
    let drafts: Vec<Draft> = plans
        .iter()
        .map(|plan| Draft::new(&whole, plan, card_width, &around))
        .collect();
    let mut listings: Vec<Listing> = Vec::new();
    if plans.len() > 1 {
        listings.extend(listing::card_pages(&around, &cards));
    }
    let shapes_page = plans.len() + listings.len() + 1;
    if drafts.iter().any(|draft| draft.legend.shapes_elsewhere) {
        listings.extend(listing::shape_pages(&around));
    }
    Writer {
        whole: &whole,
        around,
        count: plans.len() + listings.len(),
        shapes_page,
        card_width,
    }
    .write(&drafts, &listings)
}

/// A page before its number is known.
struct Draft<'a> {
    plan: &'a Plan,
    lists: Lists,
    contents: Vec<contents::Content>,
    legend: Legend,
}

impl Draft<'_> {
    fn new<'a>(whole: &Whole, plan: &'a Plan, card_width: f64, around: &Around) -> Draft<'a> {
        let (contents, lists) = contents::contents(whole, plan, card_width);
        let legend = Legend::new(whole.sheet, plan, &contents, around.blamed);
        Draft {
            plan,
            lists,
            contents,
            legend,
        }
    }
}

/// What all pages of a drawing share.
struct Writer<'a> {
    whole: &'a Whole<'a>,
    around: Around<'a>,
    count: usize,
    shapes_page: usize,
    card_width: f64,
}

impl Writer<'_> {
    fn write(&self, drafts: &[Draft], listings: &[Listing]) -> Drawing {
        let mut tally = Tally::default();
        let mut pages = Vec::new();
        for (number, draft) in (1..).zip(drafts) {
            tally.arrows += draft.plan.graph.arrows.len();
            tally.listed += draft.lists.listed;
            tally.left_out += draft.lists.left_out;
            let mut around = self.around(number);
            around.notes.extend(self.notes(draft));
            let layout = self.layout(draft, &around);
            pages.push(page::page(&around, layout, &draft.legend));
        }
        for (number, listing) in (drafts.len() + 1..).zip(listings) {
            pages.push(listing::draw(&self.around(number), self.whole, listing));
        }
        Drawing { pages, tally }
    }

    fn around(&self, number: usize) -> Around<'_> {
        Around {
            number: (number, self.count),
            ..self.around.clone()
        }
    }

    fn layout(&self, draft: &Draft, around: &Around) -> Layout {
        let (_, width, height) = page::room(around, &draft.legend);
        layout(
            self.whole.sheet,
            draft.plan,
            &draft.contents,
            self.card_width,
            width / height,
        )
    }

    /// What a page leaves out, or shows elsewhere.
    fn notes(&self, draft: &Draft) -> Vec<String> {
        let mut notes = Vec::new();
        let here = draft
            .plan
            .cards
            .first()
            .and_then(|card| self.whole.page_of[*card]);
        let inside = |arrow: &&Arrow| {
            let pages = [arrow.from, arrow.to].map(|card| self.whole.page_of[card]);
            here.is_some() && pages == [here, here]
        };
        let inside = self.whole.graph.arrows.iter().filter(inside).count();
        let drawn = draft.plan.graph.arrows.len();
        if inside > drawn {
            notes.push(format!(
                "Of {} between cards of this page {} in lines below the cards, not as arrows.",
                counted(inside, "link"),
                if inside - drawn == 1 {
                    "1 stands".to_string()
                } else {
                    format!("{} stand", inside - drawn)
                }
            ));
        }
        if draft.lists.left_out > 0 {
            notes.push(format!(
                "Left out: {} of cards that have too many for the lines below them.",
                counted(draft.lists.left_out, "link")
            ));
        }
        if draft.legend.shapes_elsewhere {
            notes.push(format!("The shapes stand on page {}.", self.shapes_page));
        }
        notes
    }
}

/// What a choice of cards leaves out, in words.
fn choice_note(whole: &Whole, choice: Choice, drawn: usize) -> Option<String> {
    let words = choice.words(whole.sheet)?;
    let left_out = |arrow: &&Arrow| whole.page_of[arrow.from].is_none();
    let links = whole.graph.arrows.iter().filter(left_out).count();
    let cards = whole.graph.cards;
    Some(format!(
        "Drawn: {drawn} of {}, {words}. Left out: {} and their {}.",
        counted(cards, "card"),
        counted(cards - drawn, "other card"),
        counted(links, "link"),
    ))
}

/// The links on the path from a booking of each desk to its unmet pair of 50. A path may run against them.
fn blamed(sheet: &Sheet) -> Vec<Arrow> {
    let of_desk = |(desk, goal)| blamed_by(sheet, desk, goal);
    sheet.all_not_met().flat_map(of_desk).collect()
}

/// The links on the path from a desk's booking to its unmet pair.
fn blamed_by(sheet: &Sheet, desk: Desk, goal: Pair) -> Vec<Arrow> {
    let steps = path(&sheet.setting, &sheet.booked_by(desk), goal).unwrap_or_default();
    let next = steps.iter().skip(1).map(|((card, _), _)| *card).chain([goal.0]);
    let arrows = steps.iter().zip(next);
    arrows
        .map(|(((card, _), label), next)| arrow(*card, *label, next))
        .collect()
}

/// The link with this label, seen from a card, whose other end is at the far card.
fn arrow(card: Card, label: Label, far: Card) -> Arrow {
    let (from, to) = match label.way {
        Way::Outgoing => (card, far),
        Way::Incoming => (far, card),
    };
    Arrow {
        from: from.index(),
        kind: label.kind.index(),
        to: to.index(),
    }
}

impl Drawing {
    /// The names and texts of its files. One page has the name itself; several have numbers, OUT-1.svg, OUT-2.svg
    /// and so on. Standard output gets all of them, one below the other.
    pub fn files(&self, out: &str) -> Vec<(String, String)> {
        match &self.pages[..] {
            [page] => vec![(out.to_string(), page.svg.clone())],
            _ if out == "-" => vec![(out.to_string(), self.stacked())],
            pages => (1..)
                .zip(pages)
                .map(|(number, page)| (numbered(out, number), page.svg.clone()))
                .collect(),
        }
    }

    /// All pages one below the other in one drawing.
    pub fn stacked(&self) -> String {
        let (width, each) = (page::WIDTH, page::HEIGHT);
        let height = each * self.pages.len() as f64;
        let mut out = format!(
            "<svg xmlns=\"http://www.w3.org/2000/svg\" width=\"{width}mm\" height=\"{height}mm\" \
             viewBox=\"0 0 {width} {height}\">\n"
        );
        for (number, page) in self.pages.iter().enumerate() {
            let place = format!(
                "<svg y=\"{}\" width=\"{width}\" height=\"{each}\"",
                each * number as f64
            );
            let start = format!("<svg width=\"{width}mm\" height=\"{each}mm\"");
            let inner = page.svg.replacen(" xmlns=\"http://www.w3.org/2000/svg\"", "", 1);
            out += &inner.replacen(&start, &place, 1);
        }
        out + "</svg>\n"
    }
}

/// The name of a page's file.
fn numbered(out: &str, number: usize) -> String {
    match out.strip_suffix(".svg") {
        Some(name) => format!("{name}-{number}.svg"),
        None => format!("{out}-{number}"),
    }
}
