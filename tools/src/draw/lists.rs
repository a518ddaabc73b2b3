//! Links that aren't drawn as arrows stand as lines below their cards: those to other pages, and those of a page
//! that has too many. A card also says from which pages links lead to it.

use super::answers::Answers;
use super::graph::{Arrow, Graph};
use super::measure::LIST;
use super::page::counted;
use super::plan::Plan;
use super::wrap::{cut_off, wrap, Face};
use crate::text::check::Sheet;
use std::collections::{BTreeMap, BTreeSet};

/// The most lines of a card that can't show all its links.
const ENOUGH_LINES: usize = 72;
/// The letters of the lines.
pub const FACE: Face = Face {
    height: LIST,
    bold: false,
};
/// How far the further lines of a list stand in.
pub const INDENT: f64 = 2.0;

/// A sheet, and where each of its cards stands.
#[derive(Clone, Debug)]
pub struct Whole<'a> {
    /// The sheet.
    pub sheet: &'a Sheet,
    /// What it comes to.
    pub answers: &'a Answers,
    /// All its cards and links.
    pub graph: Graph,
    /// The page of each card, from 1; none if it isn't drawn.
    pub page_of: Vec<Option<usize>>,
}

impl Whole<'_> {
    /// Notes which cards stand on which page.
    pub fn set_pages<'a>(&mut self, pages: impl Iterator<Item = &'a [usize]>) {
        self.page_of.fill(None);
        for (number, cards) in (1..).zip(pages) {
            for card in cards {
                self.page_of[*card] = Some(number);
            }
        }
    }
}

/// One line below a card.
#[derive(Clone, PartialEq, Debug)]
pub struct Line {
    /// Its text.
    pub text: String,
    /// The kind whose colour it has.
    pub kind: Option<usize>,
    /// Whether it goes on with the line before it.
    pub goes_on: bool,
}

/// The lines of all cards of a page, and what they had no room for.
#[derive(Clone, Default, PartialEq, Debug)]
pub struct Lists {
    /// For each card of the page, its lines.
    pub lines: Vec<Vec<Line>>,
    /// How many links stand in lines.
    pub listed: usize,
    /// How many links are left out for want of room.
    pub left_out: usize,
}

/// The room for lines below a card: its width, and how many lines there may be.
pub type Room = (f64, usize);

/// The lines for some cards, some of whose links are arrows.
pub fn lists(whole: &Whole, plan: &Plan, room: Room) -> Lists {
    let drawn: BTreeSet<Arrow> = plan.arrows().collect();
    let arrows = &whole.graph.arrows;
    let mut lists = Lists::default();
    for card in &plan.cards {
        let first = arrows.partition_point(|arrow| arrow.from < *card);
        let own = arrows[first..].iter().take_while(|arrow| arrow.from == *card);
        let mut kinds: BTreeMap<usize, Vec<usize>> = BTreeMap::new();
        for arrow in own.filter(|arrow| !drawn.contains(arrow)) {
            kinds.entry(arrow.kind).or_default().push(arrow.to);
        }
        let mut lines = lists.going_out(whole, *card, kinds, room);
        lines.extend(coming_in(whole, *card, room.0));
        lists.lines.push(lines);
    }
    lists
}

impl Lists {
    /// The lines for the links of one card, by kind, as far as there is room below it.
    fn going_out(
        &mut self,
        whole: &Whole,
        card: usize,
        kinds: BTreeMap<usize, Vec<usize>>,
        (room, most): Room,
    ) -> Vec<Line> {
        let text = |(kind, targets): (&usize, &Vec<usize>)| {
            let name = cut_off(&whole.sheet.text.kinds[*kind].text, room / 2.0, FACE);
            let text = format!("{name} → {}", targets_text(whole, card, targets));
            (*kind, targets.len(), wrap(&text, room - INDENT, FACE, usize::MAX))
        };
        let texts: Vec<(usize, usize, Vec<String>)> = kinds.iter().map(text).collect();
        let needed: usize = texts.iter().map(|(_, _, texts)| texts.len()).sum();
        // A card that can't show all its links leaves room for others beside it.
        let most = if needed > most {
            most.min(ENOUGH_LINES)
        } else {
            most
        };
        let mut lines = Vec::new();
        let mut left_out = 0;
        for (kind, links, texts) in texts {
            if lines.len() + texts.len() > most {
                left_out += links;
                continue;
            }
            self.listed += links;
            lines.extend(numbered(texts, Some(kind)));
        }
        if left_out > 0 {
            self.left_out += left_out;
            lines.extend(numbered(
                vec![format!("and {}", counted(left_out, "more link"))],
                None,
            ));
        }
        lines
    }
}

/// The lines of one text.
fn numbered(texts: Vec<String>, kind: Option<usize>) -> impl Iterator<Item = Line> {
    texts.into_iter().enumerate().map(move |(number, text)| Line {
        text,
        kind,
        goes_on: number > 0,
    })
}

/// Targets by page; a lone one by its title too.
fn targets_text(whole: &Whole, card: usize, targets: &[usize]) -> String {
    let page_of = &whole.page_of;
    let here = page_of[card];
    let place = |page: Option<usize>| match page {
        None => " (not\u{a0}drawn)".to_string(),
        Some(page) if Some(page) == here => String::new(),
        Some(page) => format!(" (p.\u{a0}{page})"),
    };
    if let [to] = targets {
        return format!("{to} {}{}", whole.sheet.text.card_title(*to), place(page_of[*to]));
    }
    let mut by_page: BTreeMap<Option<usize>, Vec<usize>> = BTreeMap::new();
    for to in targets {
        by_page.entry(page_of[*to]).or_default().push(*to);
    }
    let texts = by_page
        .iter()
        .map(|(page, targets)| runs(targets) + &place(*page));
    texts.collect::<Vec<_>>().join("; ")
}

/// Ascending numbers, those in a row by the first and the last of them.
pub fn runs(numbers: &[usize]) -> String {
    let mut texts: Vec<String> = Vec::new();
    for run in numbers.chunk_by(|one, two| one + 1 == *two) {
        match run {
            [first, _, .., last] => texts.push(format!("{first}–{last}")),
            few => texts.extend(few.iter().map(usize::to_string)),
        }
    }
    texts.join(", ")
}

/// The pages from which links lead to a card, and the cards that aren't drawn from which some do.
fn coming_in(whole: &Whole, card: usize, room: f64) -> impl Iterator<Item = Line> {
    let (mut pages, mut absent) = (BTreeSet::new(), BTreeSet::new());
    for arrow in whole.graph.arrows.iter().filter(|arrow| arrow.to == card) {
        match whole.page_of[arrow.from] {
            None => absent.insert(arrow.from),
            Some(page) if Some(page) != whole.page_of[card] => pages.insert(page),
            _ => false,
        };
    }
    let text = |numbers: BTreeSet<usize>, before: &str, after: &str| {
        let numbers: Vec<usize> = numbers.into_iter().collect();
        let text = format!("← from {before}{}{after}", runs(&numbers));
        let lines = if numbers.is_empty() { 0 } else { 3 };
        wrap(&text, room - INDENT, FACE, 3)
            .into_iter()
            .take(lines)
            .collect()
    };
    let pages: Vec<String> = text(pages, "p.\u{a0}", "");
    let absent: Vec<String> = text(absent, "", " (not\u{a0}drawn)");
    numbered(pages, None).chain(numbered(absent, None))
}
