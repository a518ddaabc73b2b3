//! How a question is put to a sheet printer: the input that shows it, and what the printed text says about it.

use super::answers::{files, lines};
use super::examples::{Operation, Question};
use crate::generate::counted;
use crate::labels::Labelled;
use crate::numbers::Shape;
use crate::sheet::Files;
use crate::template;
use crate::typing::{asked, bookings, Setting};

/// The input whose sheet tells the answer, if there is one.
pub fn input(question: &Question) -> Option<Vec<u8>> {
    let files = files(question);
    let sheet = match question.operation {
        Operation::Fit if template::read(&files.template).is_ok() => counted(question)?,
        Operation::Template | Operation::Fit => Files {
            script: vec![1, 0],
            bookings: vec![0],
            ..files
        },
        Operation::Script => Files {
            bookings: vec![0],
            ..files
        },
        Operation::Largest if is_asked_rightly(question) => Files {
            bookings: vec![0],
            ..files
        },
        Operation::Smallest | Operation::Both if is_asked_rightly(question) => files,
        Operation::Sheet | Operation::Has | Operation::Booked => files,
        Operation::Input => return Some(question.input.clone()),
        _ => return None,
    };
    Some(sheet.bytes())
}

/// What the page's answer is, as far as the sheet can tell it.
pub fn wanted(question: &Question, answer: &str) -> String {
    match question.operation {
        Operation::Template | Operation::Script if !is_refused(answer) => "accepted".to_string(),
        _ => answer.to_string(),
    }
}

/// What the printed text says about the question.
pub fn said(question: &Question, text: &str) -> String {
    if is_refused(text) {
        return lines(text);
    }
    // The largest typing, and each desk's smallest.
    let mut parts = text.split("smallest").map(lines);
    let largest = parts.next().unwrap_or_default();
    let smallest: Vec<String> = parts.map(|part| format!("smallest{part}")).collect();
    let of_desk = |desk: u16| smallest.get(usize::from(desk)).cloned().unwrap_or_default();
    match question.operation {
        Operation::Template | Operation::Script => "accepted".to_string(),
        Operation::Fit if of_desk(0) == "smallest no 0 0" => "no".to_string(),
        Operation::Fit if !of_desk(0).starts_with("smallest no") => "yes".to_string(),
        Operation::Has => has_shape(question, &largest),
        Operation::Booked if of_desk(question.desk).starts_with("smallest no") => "no".to_string(),
        Operation::Booked => "yes".to_string(),
        Operation::Largest => largest,
        Operation::Smallest => of_desk(question.desk),
        Operation::Both => format!("{largest} / {}", of_desk(question.desk)),
        _ => lines(text),
    }
}

/// Whether the card of a question has its shape in the lines of the largest typing.
fn has_shape(question: &Question, largest: &str) -> String {
    let start = format!("card {}:", question.card);
    let card = largest.split(" / ").find_map(|line| line.strip_prefix(&start));
    let shape = question.shape.to_string();
    match card {
        Some(shapes) if shapes.split(' ').any(|word| word == shape) => "yes".to_string(),
        _ => "no".to_string(),
    }
}

fn is_refused(text: &str) -> bool {
    text.starts_with("refused ")
}

/// Whether the desk and the sizes of the lent grids are right, or something is refused before them: a printer asks for
/// both desks and lends its own grids.
fn is_asked_rightly(question: &Question) -> bool {
    let Ok(setting) = Setting::read(&question.template, &question.script) else {
        return true;
    };
    let is_booked = question.operation != Operation::Largest;
    let bookings_are_refused = is_booked && bookings::read(&setting, &question.bookings).is_err();
    let lent = match question.operation {
        Operation::Both => vec![question.smallest, question.largest],
        _ => vec![question.bytes],
    };
    let is_sized = lent.iter().all(|bytes| *bytes == setting.size());
    bookings_are_refused || asked(question.desk).is_ok() && is_sized
}

/// A sheet whose bookings are met exactly if the counts fit; none if something is refused or there are too many.
fn counted(question: &Question) -> Option<Files> {
    let template = template::read(&question.template).ok()?;
    let is_asked =
        question.shape < template.shapes() && question.counts.len() == 2 * usize::from(template.kinds);
    let asked = is_asked.then(|| template.definition(Shape(question.shape)))?;
    counted::sheet(asked, &Labelled::from(question.counts.clone()))
}
