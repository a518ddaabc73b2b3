//! Text to words. Beside each word stands where it comes from, so that a refusal of the words can be told at a
//! line and column of the text. Only what no word can say is a fault here: names that nobody knows, names given
//! twice, files too long to be counted. All else is left to the readers of the words.

use super::names::{count, Names};
use super::parse::Parsed;
use super::{BookLine, Expression, Fault, Faults, LinkExpression, Name, ShapeLine, Spot, Text};
use crate::desk::Desk;
use crate::labels::Way;
use crate::sheet::Files;
use crate::template::{CHOICE, INCOMING, NOTHING, NO_LIMIT, OPEN, OUTGOING, PLUS, STAR};

/// Where a word comes from.
#[derive(Clone, PartialEq, Eq, Debug)]
pub struct Origin {
    /// Its line and column.
    pub spot: Spot,
    /// What it is for, with names.
    pub role: String,
}

/// One file's words, each with its origin.
#[derive(Clone, Default, Debug)]
pub struct Section {
    /// The words.
    pub words: Vec<u16>,
    /// The origin of each.
    pub origins: Vec<Origin>,
}

/// The three files of a text.
#[derive(Clone, Debug)]
pub struct Compiled {
    /// The template.
    pub template: Section,
    /// The script.
    pub script: Section,
    /// The bookings.
    pub bookings: Section,
}

impl Compiled {
    /// The files without their origins.
    pub fn files(&self) -> Files {
        Files {
            template: self.template.words.clone(),
            script: self.script.words.clone(),
            bookings: self.bookings.words.clone(),
        }
    }
}

impl Section {
    fn push(&mut self, word: u16, spot: Spot, role: impl Into<String>) {
        self.words.push(word);
        let role = role.into();
        self.origins.push(Origin { spot, role });
    }
}

/// The words of a text that has no faults, or all its faults, in the text's order.
pub fn compile(parsed: &Parsed) -> Result<Compiled, Faults> {
    let Parsed { text, doubtful, .. } = parsed;
    let mut faults = parsed.faults.clone();
    let (shapes, cards) = (
        text.shapes.iter().map(|shape| &shape.name),
        text.cards.iter().map(|(name, _)| name),
    );
    let mut compiler = Compiler {
        kinds: Names::new("kind", text.kinds.iter(), doubtful, &mut faults),
        shapes: Names::new("shape", shapes, doubtful, &mut faults),
        cards: Names::new("card", cards, doubtful, &mut faults),
        faults,
    };
    let compiled = Compiled {
        template: compiler.template(text),
        script: compiler.script(text),
        bookings: compiler.bookings(text),
    };
    let mut faults = compiler.faults;
    for section in [&compiled.template, &compiled.script, &compiled.bookings] {
        if let Some(origin) = section.origins.get(usize::from(u16::MAX)) {
            let message = "no word can count this many words; the section is too long";
            faults.note(|| Fault::at(origin.spot, message));
        }
    }
    faults.told.sort_by_key(|fault| fault.spot);
    match faults.is_empty() {
        true => Ok(compiled),
        false => Err(faults),
    }
}

/// The spot of the first entry over a limit, of the first of all if none is, or of the text's start.
fn overflow<'a>(names: impl Iterator<Item = &'a Name>, limit: usize) -> Spot {
    let start = Spot { line: 1, column: 1 };
    let spots: Vec<Spot> = names.map(|name| name.spot).collect();
    spots.get(limit).or(spots.first()).copied().unwrap_or(start)
}

/// Makes words of a text. Where a name isn't known, that is noted, and the word is of no use.
struct Compiler<'a> {
    kinds: Names<'a>,
    shapes: Names<'a>,
    cards: Names<'a>,
    faults: Faults,
}

impl Compiler<'_> {
    fn template(&mut self, text: &Text) -> Section {
        let mut section = Section::default();
        let spot = overflow(text.kinds.iter(), 64);
        section.push(
            count(text.kinds.len(), spot, &mut self.faults),
            spot,
            "the count of kinds",
        );
        let spot = overflow(text.shapes.iter().map(|shape| &shape.name), 32);
        section.push(
            count(text.shapes.len(), spot, &mut self.faults),
            spot,
            "the count of shapes",
        );
        for ShapeLine { open, name, part } in &text.shapes {
            let mut words = Section::default();
            if let Some(spot) = open {
                let role = format!("the code that makes shape {} open", name.text);
                words.push(OPEN, *spot, role);
            }
            self.part(part, &name.text, &mut words);
            section.push(
                count(words.words.len(), name.spot, &mut self.faults),
                name.spot,
                format!("the count of words of shape {}", name.text),
            );
            section.words.extend(words.words);
            section.origins.extend(words.origins);
        }
        section
    }

    /// The words of a part of the named shape.
    fn part(&mut self, part: &Expression, shape: &str, section: &mut Section) {
        match part {
            Expression::Nothing(spot) => section.push(NOTHING, *spot, format!("nothing, in shape {shape}")),
            Expression::Wrap(code, inner, spot) => {
                let sign = match *code {
                    STAR => "star",
                    PLUS => "plus",
                    _ => "optional",
                };
                section.push(*code, *spot, format!("{sign}, in shape {shape}"));
                self.part(inner, shape, section);
            }
            Expression::Group(code, parts, spot) => {
                let word = if *code == CHOICE { "choice" } else { "all" };
                section.push(*code, *spot, format!("{word}, in shape {shape}"));
                let role = format!("the count of parts of {word} in shape {shape}");
                section.push(count(parts.len(), *spot, &mut self.faults), *spot, role);
                for inner in parts {
                    self.part(inner, shape, section);
                }
            }
            Expression::Link(link) => self.link(link, shape, section),
        }
    }

    /// The words of a link part of the named shape.
    fn link(&mut self, link: &LinkExpression, shape: &str, section: &mut Section) {
        let (way, spot) = link.way;
        let (first, what) = match way {
            Way::Outgoing => (OUTGOING, "link"),
            Way::Incoming => (INCOMING, "arriving link"),
        };
        let kind = self.kinds.find(&link.kind, &mut self.faults);
        let code = first.checked_add(kind).unwrap_or_else(|| {
            let message = "no word can say a kind with so high a number";
            self.faults.note(|| Fault::at(link.kind.spot, message));
            first
        });
        let of = format!("the {what} {} in shape {shape}", link.kind.text);
        section.push(code, spot, format!("the code of {of}"));
        let far = self.shapes.find(&link.shape, &mut self.faults);
        section.push(far, link.shape.spot, format!("the shape of {of}"));
        section.push(link.low.0, link.low.1, format!("the low of {of}"));
        let high = link.high.0.unwrap_or(NO_LIMIT);
        section.push(high, link.high.1, format!("the high of {of}"));
    }

    /// The script; its links are put into their order, those that stand twice stay twice.
    fn script(&mut self, text: &Text) -> Section {
        let mut links = Vec::new();
        for names in &text.links {
            let [from, kind, to] = names;
            let numbers = [
                self.cards.find(from, &mut self.faults),
                self.kinds.find(kind, &mut self.faults),
                self.cards.find(to, &mut self.faults),
            ];
            links.push((numbers, names));
        }
        links.sort_by_key(|(numbers, _)| *numbers);
        let mut section = Section::default();
        let spot = overflow(text.cards.iter().map(|(name, _)| name), 1024);
        section.push(
            count(text.cards.len(), spot, &mut self.faults),
            spot,
            "the count of cards",
        );
        let spot = overflow(text.links.iter().map(|names| &names[2]), 8192);
        section.push(
            count(text.links.len(), spot, &mut self.faults),
            spot,
            "the count of links",
        );
        for (numbers, [from, kind, to]) in links {
            let of = format!("the link {} {} {}", from.text, kind.text, to.text);
            // A link that stands twice is told at its target, because several may share the rest.
            section.push(numbers[0], to.spot, format!("the start of {of}"));
            section.push(numbers[1], kind.spot, format!("the kind of {of}"));
            section.push(numbers[2], to.spot, format!("the target of {of}"));
        }
        section
    }

    fn bookings(&mut self, text: &Text) -> Section {
        let mut section = Section::default();
        let spot = overflow(text.bookings.iter().map(|booking| &booking.card), 1024);
        section.push(
            count(text.bookings.len(), spot, &mut self.faults),
            spot,
            "the count of bookings",
        );
        for BookLine { desk, card, shape } in &text.bookings {
            let (number, written, spot) = match desk {
                Some((number, name)) => (*number, format!("{} ", name.text), name.spot),
                None => (Desk::Radio.number(), String::new(), card.spot),
            };
            let of = format!("the booking {written}{} {}", card.text, shape.text);
            section.push(number, spot, format!("the desk of {of}"));
            let number = self.cards.find(card, &mut self.faults);
            section.push(number, card.spot, format!("the card of {of}"));
            let number = self.shapes.find(shape, &mut self.faults);
            section.push(number, shape.spot, format!("the shape of {of}"));
        }
        section
    }
}
