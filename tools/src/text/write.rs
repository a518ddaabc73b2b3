//! A sheet as text, with its links in order. Words know no names, so kinds, shapes and cards of words are named by
//! their numbers. The text gives the same words again.

use super::check::Sheet;
use super::load::load_sheet;
use super::{quotations, Text};
use crate::desk::Desk;
use crate::labels::Way;
use crate::template::{Link, Part};
use crate::typing::bookings::Booking;
use crate::typing::Setting;
use std::fmt::Write;

/// The text of an input, or the refusal in words.
pub fn text(input: &[u8]) -> Result<String, String> {
    match load_sheet("input", input) {
        Ok(sheet) => Ok(sheet_text(&sheet)),
        Err(trouble) => Err(trouble.to_string()),
    }
}

/// What things are called.
struct Names {
    kinds: Vec<String>,
    shapes: Vec<String>,
    /// The cards, each with its title if it has one.
    cards: Vec<String>,
}

/// The text of a sheet: names and titles stay, comments go.
pub fn sheet_text(sheet: &Sheet) -> String {
    let text = &sheet.text;
    let title = text
        .title
        .as_ref()
        .map(|title| format!("title {}\n\n", quotations::write(title)));
    let names = Names {
        kinds: text.kinds.iter().map(|name| name.text.clone()).collect(),
        shapes: text.shapes.iter().map(|shape| shape.name.text.clone()).collect(),
        cards: text.cards.iter().map(|(name, _)| name.text.clone()).collect(),
    };
    let titles: Vec<Option<&str>> = text.cards.iter().map(|(_, title)| title.as_deref()).collect();
    title.unwrap_or_default() + &lines(&sheet.setting, &sheet.booked, &names, &titles)
}

/// The text of a template, script and bookings that have no names.
pub fn numbered(setting: &Setting, booked: &[Booking]) -> String {
    let named = |start: &str, count: u16| (0..count).map(|number| format!("{start}{number}")).collect();
    let names = Names {
        kinds: named("kind", setting.template.kinds),
        shapes: named("Shape", setting.template.shapes()),
        cards: named("card", setting.script.cards),
    };
    lines(setting, booked, &names, &[])
}

fn lines(setting: &Setting, booked: &[Booking], names: &Names, titles: &[Option<&str>]) -> String {
    let Names { kinds, shapes, cards } = names;
    let mut text = format!("kinds: {}\n\n", kinds.join(" "));
    for (shape, definition) in shapes.iter().zip(&setting.template.definitions) {
        let start = if definition.open { "open shape" } else { "shape" };
        let part = part_named(&definition.part, kinds, shapes);
        let _ = writeln!(text, "{start} {shape} = {part}");
    }
    text.push('\n');
    for (number, card) in cards.iter().enumerate() {
        let _ = match titles.get(number).copied().flatten() {
            Some(title) => writeln!(text, "card {card} {}", quotations::write(title)),
            None => writeln!(text, "card {card}"),
        };
    }
    text.push('\n');
    for link in &setting.script.links {
        let (from, to) = (&cards[link.from.index()], &cards[link.to.index()]);
        let _ = writeln!(text, "link {from} {} {to}", kinds[link.kind.index()]);
    }
    text.push('\n');
    for (desk, (card, shape)) in booked {
        let (card, shape) = (&cards[card.index()], &shapes[shape.index()]);
        let _ = match desk {
            Desk::Radio => writeln!(text, "book {card} {shape}"),
            Desk::Television => writeln!(text, "book {} {card} {shape}", desk.number()),
        };
    }
    text
}

/// A part in the names of a text.
pub fn part_in(text: &Text, part: &Part) -> String {
    part_with(part, &|link| {
        let kind = &text.kinds[link.label.kind.index()];
        (kind.text.clone(), text.shape_name(link.shape.index()).to_string())
    })
}

fn part_named<Name: AsRef<str>>(part: &Part, kinds: &[Name], shapes: &[Name]) -> String {
    part_with(part, &|link| {
        let (kind, shape) = (&kinds[link.label.kind.index()], &shapes[link.shape.index()]);
        (kind.as_ref().to_string(), shape.as_ref().to_string())
    })
}

fn part_with(part: &Part, names: &dyn Fn(&Link) -> (String, String)) -> String {
    let group = |word: &str, parts: &[Part]| {
        let inner: Vec<String> = parts.iter().map(|part| part_with(part, names)).collect();
        format!("{word}({})", inner.join(", "))
    };
    match part {
        Part::Nothing => "nothing".to_string(),
        Part::Star(part) => part_with(part, names) + "*",
        Part::Plus(part) => part_with(part, names) + "+",
        Part::Optional(part) => part_with(part, names) + "?",
        Part::Choice(parts) => group("choice", parts),
        Part::All(parts) => group("all", parts),
        Part::Link(link) => {
            let (kind, shape) = names(link);
            let sign = match link.label.way {
                Way::Outgoing => "",
                Way::Incoming => "^",
            };
            let high = link.high.map(|high| high.to_string()).unwrap_or_default();
            format!("{sign}{kind}[{};{high}]@{shape}", link.low)
        }
    }
}
