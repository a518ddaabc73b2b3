//! A text of a page, and what the tables below it ask about it by names. Each question is put in words and numbers, as
//! if a table had asked for it that way.

use super::examples::{Operation, Question};
use crate::desk::Desk;
use crate::labels::{Label, Labelled, Way};
use crate::numbers::Kind;
use crate::text::load::{compiled, trouble};
use crate::text::{form::Form, Text};

/// A text with its words.
#[derive(Clone, Debug)]
pub struct Named {
    /// The line on which it starts.
    pub line: usize,
    /// Whether something is asked about it.
    pub is_asked: bool,
    text: Text,
    question: Question,
}

impl Named {
    /// The text of a block, which may be refused but has to have words.
    pub fn read(line: usize, lines: &[String]) -> Result<Named, String> {
        let source = lines.join("\n");
        let told = |why| trouble("text", Form::Text, why).to_string();
        let (text, compiled) = compiled(source.as_bytes()).map_err(told)?;
        let files = compiled.files();
        Ok(Named {
            line,
            is_asked: false,
            text,
            question: Question {
                template: files.template,
                script: files.script,
                bookings: files.bookings,
                ..Question::default()
            },
        })
    }

    /// What a row asks about the text; the cells are those of the columns that ask.
    pub fn question(&self, operation: Operation, cells: &[(&str, &str)]) -> Result<Question, String> {
        let mut question = Question {
            operation,
            ..self.question.clone()
        };
        for (column, cell) in cells {
            match *column {
                "shape" => question.shape = self.shape(cell)?,
                "card" => question.card = self.card(cell)?,
                "links" => question.counts = self.counts(cell)?,
                _ => {
                    let desk = Desk::called(cell).ok_or(format!("no desk is called {cell:?}"))?;
                    question.desk = desk.number();
                }
            }
        }
        Ok(question)
    }

    fn shape(&self, name: &str) -> Result<u16, String> {
        let names = self.text.shapes.iter().map(|shape| shape.name.text.as_str());
        find("shape", name, names)
    }

    fn card(&self, name: &str) -> Result<u16, String> {
        let names = self.text.cards.iter().map(|(card, _)| card.text.as_str());
        find("card", name, names)
    }

    /// Counts such as `2 song, 1 ^guest`; `-` is none at all.
    fn counts(&self, cell: &str) -> Result<Vec<u16>, String> {
        let mut counts = Labelled::new(self.text.kinds.len() as u16, 0);
        for entry in cell.split(',').map(str::trim).filter(|entry| *entry != "-") {
            let (count, kind) = entry
                .split_once(' ')
                .ok_or(format!("{entry:?} isn't a count and a kind"))?;
            let (way, kind) = match kind.strip_prefix('^') {
                Some(kind) => (Way::Incoming, kind),
                None => (Way::Outgoing, kind),
            };
            let names = self.text.kinds.iter().map(|kind| kind.text.as_str());
            let kind = Kind(find("kind", kind, names)?);
            counts[Label { way, kind }] = super::cells::number(count)?;
        }
        Ok(counts.values().to_vec())
    }
}

/// The number of a name in a list.
fn find<'a>(what: &str, name: &str, mut names: impl Iterator<Item = &'a str>) -> Result<u16, String> {
    let place = names.position(|known| known == name);
    let number = place.ok_or(format!("the text has no {what} {name:?}"))?;
    u16::try_from(number).map_err(|error| error.to_string())
}
