//! What this implementation answers, written as a page writes it. The lines of a printed sheet have ` / ` between them.
//! Behind the colon of a tidied list stands the buffer.

use super::cells;
use super::examples::{Operation, Question};
use crate::fit;
use crate::generate::tidying::UNTOUCHED;
use crate::numbers::{Card, Shape};
use crate::refusal::Refusal;
use crate::script::{self, links_of_card};
use crate::sheet::{self, Files};
use crate::template;
use crate::typing::judge::{self, judge_by_choices};
use crate::typing::{
    self, asked, bookings, both_by_rounds, largest_by_rounds, met, smallest, tidying, Largest, Pair, Setting,
    Smallest,
};

/// What a lent grid is filled with first.
const FILLED: u8 = 9;

/// The answer to a question. An error is a question that makes no sense, such as a typing of the wrong size.
pub fn answer(question: &Question) -> Result<String, String> {
    match question.operation {
        Operation::Template => Ok(read_template(question)),
        Operation::Fit => Ok(fit_counts(question)),
        Operation::Script => Ok(read_script(question)),
        Operation::Links => Ok(links(question)),
        Operation::Largest => largest(question),
        Operation::Smallest => smallest_typing(question),
        Operation::Both => both_typings(question),
        Operation::Sheet => Ok(lines(&sheet::print(&files(question).bytes()))),
        Operation::Input => Ok(lines(&sheet::print(&question.input))),
        Operation::Round => round(question),
        Operation::Closure => closure(question),
        Operation::Met => pair_is_met(question),
        Operation::Sound | Operation::Holds | Operation::Between => about_typing(question),
        Operation::Judge => Ok(judged(question)),
        Operation::Tidy => Ok(tidied(question)),
        Operation::Has => has_shape(question),
        Operation::Booked => booked_is_met(question),
    }
}

/// The number of the refusal that an answer is.
pub fn number(answer: &str) -> Option<String> {
    if answer.contains("smallest no ") {
        return Some("50".to_string());
    }
    let number = answer.strip_prefix("refused ")?.split(' ').next()?;
    Some(number.to_string())
}

/// The three files of a question.
pub fn files(question: &Question) -> Files {
    Files {
        template: question.template.clone(),
        script: question.script.clone(),
        bookings: question.bookings.clone(),
    }
}

/// The lines of a text as one line.
pub fn lines(text: &str) -> String {
    text.lines().collect::<Vec<_>>().join(" / ")
}

fn refused(refusal: Refusal) -> String {
    format!("refused {} {}", refusal.number, refusal.place)
}

fn read_template(question: &Question) -> String {
    match template::read(&question.template) {
        Ok(template) => format!("kinds {} shapes {}", template.kinds, template.shapes()),
        Err(refusal) => refused(refusal),
    }
}

fn fit_counts(question: &Question) -> String {
    fit::lines::written(fit::fit(&question.template, question.shape, &question.counts))
}

fn read_script(question: &Question) -> String {
    match script::read(&question.template, &question.script) {
        Ok(script) => format!("cards {} links {}", script.cards, script.links.len()),
        Err(refusal) => refused(refusal),
    }
}

fn links(question: &Question) -> String {
    let links = links_of_card(&question.template, &question.script, question.card);
    let words: Vec<String> = links.iter().map(u16::to_string).collect();
    if words.is_empty() {
        return "none".to_string();
    }
    words.join(" ")
}

/// The largest typing; a refusal has to leave the grid as it was.
fn largest(question: &Question) -> Result<String, String> {
    let mut grid = vec![FILLED; question.bytes];
    match largest_by_rounds(&question.template, &question.script, &mut grid) {
        Ok(answer) => largest_shown(question, answer, &grid),
        Err(refusal) => Ok(untouched(&grid, FILLED, refusal)),
    }
}

/// The answer for the largest typing, with its cards.
fn largest_shown(question: &Question, answer: Largest, grid: &[u8]) -> Result<String, String> {
    let head = format!("largest {} {} {}\n", answer.rounds, answer.struck, answer.bare);
    Ok(lines(&(head + &cards(question, grid)?)))
}

/// The smallest typing; a refusal has to leave the grid as it was.
fn smallest_typing(question: &Question) -> Result<String, String> {
    let mut grid = vec![FILLED; question.bytes];
    match smallest(
        &question.template,
        &question.script,
        &question.bookings,
        question.desk,
        &mut grid,
    ) {
        Ok(answer) => smallest_shown(question, answer, &grid),
        Err(refusal) => Ok(untouched(&grid, FILLED, refusal)),
    }
}

/// The answer for the smallest typing, with its cards; 50 has to leave the grid all 0.
fn smallest_shown(question: &Question, answer: Smallest, grid: &[u8]) -> Result<String, String> {
    Ok(match answer {
        Smallest::Pairs(pairs) => {
            let head = format!("smallest {pairs}\n");
            lines(&(head + &cards(question, grid)?))
        }
        Smallest::NotMet(card, shape) if grid.iter().all(|byte| *byte == 0) => {
            format!("smallest no {} {}", card.0, shape.0)
        }
        Smallest::NotMet(..) => "50, but the grid isn't all 0".to_string(),
    })
}

/// Both typings, the largest first. It is there with 50 too.
fn both_typings(question: &Question) -> Result<String, String> {
    let Question {
        template,
        script,
        bookings,
        desk,
        ..
    } = question;
    let both = match both_by_rounds(template, script, bookings, *desk) {
        Ok(both) => both,
        Err(refusal) => return Ok(refused(refusal)),
    };
    let (largest, smallest) = (both.largest, both.smallest);
    if [question.largest, question.smallest] != [largest.1.len(), smallest.1.len()] {
        return Ok(refused(Refusal::at(40, 0)));
    }
    let largest = largest_shown(question, largest.0, &largest.1)?;
    let smallest = smallest_shown(question, smallest.0, &smallest.1)?;
    Ok(format!("{largest} / {smallest}"))
}

/// The tidied list; a refusal has to leave the buffer as it was.
fn tidied(question: &Question) -> String {
    let Question {
        template,
        script,
        bookings,
        words,
        ..
    } = question;
    let mut buffer = vec![UNTOUCHED; *words];
    match tidying::tidy(template, script, bookings, &mut buffer) {
        Ok(words) => tidying::answer(Ok(words), &buffer),
        Err(refusal) => untouched(&buffer, UNTOUCHED, refusal),
    }
}

/// A refusal whose grid or buffer must be as it was.
fn untouched<T: PartialEq>(lent: &[T], filled: T, refusal: Refusal) -> String {
    if lent.iter().any(|entry| *entry != filled) {
        return format!("{}, but what was lent has changed", refused(refusal));
    }
    refused(refusal)
}

/// A line for each card of a grid.
fn cards(question: &Question, grid: &[u8]) -> Result<String, String> {
    Ok(sheet::card_lines(grid, setting(question)?.template.shapes()))
}

/// The sheet of a question whose files must be well-formed.
fn setting(question: &Question) -> Result<Setting, String> {
    Setting::read(&question.template, &question.script).map_err(refused)
}

/// A typing of the right size.
fn sized<'a>(setting: &Setting, grid: &'a [u8]) -> Result<&'a [u8], String> {
    if grid.len() != setting.size() {
        return Err(format!("the typing has {} pairs", grid.len()));
    }
    Ok(grid)
}

/// The grid after some rounds from every pair.
fn round(question: &Question) -> Result<String, String> {
    let setting = setting(question)?;
    let mut grid = vec![1; setting.size()];
    for _ in 0..question.round {
        let found = grid.clone();
        for pair in setting.pairs() {
            if !met::met_by_choices(&setting, &found, pair) {
                grid[setting.place(pair)] = 0;
            }
        }
    }
    Ok(cells::shown(&grid, setting.template.shapes()))
}

/// What the desk of a question books.
fn booked(question: &Question, setting: &Setting) -> Result<Vec<Pair>, String> {
    let booked = bookings::read(setting, &question.bookings).map_err(refused)?;
    let desk = asked(question.desk).map_err(refused)?;
    Ok(bookings::of(desk, &booked))
}

/// The closure of a desk's bookings.
fn closure(question: &Question) -> Result<String, String> {
    let setting = setting(question)?;
    let booked = booked(question, &setting)?;
    let grid = typing::closure::closure(&setting, &booked);
    Ok(cells::shown(&grid, setting.template.shapes()))
}

/// Whether the pair of a question is met, by trying every choice.
fn pair_is_met(question: &Question) -> Result<String, String> {
    let setting = setting(question)?;
    let grid = sized(&setting, &question.typing)?;
    if question.card >= setting.script.cards || question.shape >= setting.template.shapes() {
        return Err("the sheet has no such card or no such shape".to_string());
    }
    let is_met = met::met_by_choices(&setting, grid, (Card(question.card), Shape(question.shape)));
    Ok(if is_met { "met" } else { "not met" }.to_string())
}

/// Whether a card has a shape in the largest typing.
fn has_shape(question: &Question) -> Result<String, String> {
    let setting = setting(question)?;
    let (_, grid) = typing::rounds::largest(&setting);
    let place = setting.place((Card(question.card), Shape(question.shape)));
    Ok(yes(grid[place] == 1))
}

/// Whether what a desk books is met.
fn booked_is_met(question: &Question) -> Result<String, String> {
    let setting = setting(question)?;
    let (answer, _) = typing::closure::smallest(&setting, &booked(question, &setting)?);
    Ok(yes(matches!(answer, Smallest::Pairs(_))))
}

fn yes(is_so: bool) -> String {
    if is_so { "yes" } else { "no" }.to_string()
}

/// What is said about a grid, each pair by trying every choice.
fn judged(question: &Question) -> String {
    let Question {
        template,
        script,
        bookings,
        desk,
        grid,
        ..
    } = question;
    judge::answer(judge_by_choices(template, script, bookings, *desk, grid))
}

/// Whether the typing of a question is sound, holds a desk's bookings, or lies between two others.
fn about_typing(question: &Question) -> Result<String, String> {
    let setting = setting(question)?;
    let grid = sized(&setting, &question.typing)?;
    let answer = match question.operation {
        Operation::Sound => match met::sound(&setting, grid) {
            true => "sound",
            false => "not sound",
        },
        Operation::Holds => {
            let booked = booked(question, &setting)?;
            match met::holds(&setting, grid, &booked) {
                true => "holds",
                false => "does not hold",
            }
        }
        _ => match met::lies_below(&question.lower, grid) && met::lies_below(grid, &question.upper) {
            true => "between",
            false => "not between",
        },
    };
    Ok(answer.to_string())
}
