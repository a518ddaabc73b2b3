//! Commands that take a sheet.

use super::{noticed, tell_json, wrong};
use crate::files::{read, show, write};
use crate::usage::{Failure, Given, Outcome};
use prep_tools::desk::Desk;
use prep_tools::programs::Question;
use prep_tools::sheet::Files;
use prep_tools::text::form::{form, Form};
use prep_tools::text::judged::{self, Verdict};
use prep_tools::text::load::{load_input, load_sheet};
use prep_tools::text::report::counted;
use prep_tools::text::{machine, tidy as tidying, write as writing};
use prep_tools::typing::bookings::stored_words;
use prep_tools::typing::{Pair, Smallest};
use prep_tools::{draw as drawing, sheet as printer};

pub fn check(given: &Given) -> Result<Outcome, Failure> {
    let file = given.at(0);
    let sheet = load_sheet(file, &read(file)?)?;
    if given.has("--json") {
        tell_json(machine::outcome(&sheet, file))?;
    } else {
        show(sheet.report(file))?;
    }
    Ok(noticed(!sheet.is_met()))
}

pub fn draw(given: &Given) -> Result<Outcome, Failure> {
    let (file, out) = (given.at(0), given.at(1));
    let sheet = load_sheet(file, &read(file)?)?;
    let choice = drawing::choice::Choice::read(&sheet, &given.options)?;
    for (name, page) in drawing::draw(&sheet, choice).files(out) {
        write(&name, page.as_bytes())?;
    }
    Ok(Outcome::Fine)
}

pub fn judge(given: &Given) -> Result<Outcome, Failure> {
    let (file, grid_file) = (given.at(0), given.at(1));
    if file == "-" && grid_file == "-" {
        return Err(wrong("judge", "FILE and GRID can't both be standard input"));
    }
    let desk = desk_of(given, "judge", 2)?;
    let sheet = load_sheet(file, &read(file)?)?;
    let verdict = judged::judge(&sheet, desk, &read(grid_file)?);
    if given.has("--json") {
        tell_json(machine::judged(&sheet, file, desk, &verdict))?;
    } else {
        show(judged::words(&sheet, desk, (file, grid_file), &verdict))?;
    }
    Ok(noticed(!matches!(verdict, Verdict::Accepted(_))))
}

/// The desk that an argument names; the radio if it isn't given.
fn desk_of(given: &Given, command: &str, index: usize) -> Result<Desk, Failure> {
    let word = given.arguments.get(index).copied();
    let word = word.unwrap_or(Desk::Radio.name());
    let what = || format!("DESK is 0 or radio, 1 or television, not {word}");
    Desk::called(word).ok_or_else(|| wrong(command, &what()))
}

pub fn grid(given: &Given) -> Result<Outcome, Failure> {
    let (file, which, out) = (given.at(0), given.at(1), given.at(2));
    let desk = desk_of(given, "grid", 3)?;
    let typings = load_sheet(file, &read(file)?)?.typings;
    let (_, largest) = &typings.largest;
    let (settled, smallest) = &typings.smallest[desk.index()];
    match (which, settled) {
        ("largest", _) => write(out, largest)?,
        ("smallest", Smallest::Pairs(_)) => write(out, smallest)?,
        ("smallest", Smallest::NotMet(..)) => {
            eprintln!("{file}: the bookings of the {} can't be met", desk.name());
            return Ok(Outcome::Noticed);
        }
        _ => {
            let what = format!("TYPING is largest or smallest, not {which}");
            return Err(wrong("grid", &what));
        }
    }
    Ok(Outcome::Fine)
}

pub fn judged(given: &Given) -> Result<Outcome, Failure> {
    let (file, grid_file, out) = (given.at(0), given.at(1), given.at(3));
    if file == "-" && grid_file == "-" {
        return Err(wrong("judged", "FILE and GRID can't both be standard input"));
    }
    let question = Question {
        desk: desk_of(given, "judged", 2)?.number(),
        files: load_sheet(file, &read(file)?)?.compiled.files(),
        grid: read(grid_file)?,
    };
    let Some(bytes) = question.bytes() else {
        let what = format!("the file {grid_file} has more bytes than a grid can have");
        return Err(Failure::Words(what));
    };
    write(out, &bytes)?;
    Ok(Outcome::Fine)
}

pub fn stored(given: &Given) -> Result<Outcome, Failure> {
    let (file, out) = (given.at(0), given.at(1));
    let sheet = load_sheet(file, &read(file)?)?;
    let pairs: Vec<Pair> = sheet.booked.iter().map(|(_, pair)| *pair).collect();
    let files = Files {
        bookings: stored_words(&pairs),
        ..sheet.compiled.files()
    };
    write(out, &files.bytes())?;
    Ok(Outcome::Fine)
}

pub fn words(given: &Given) -> Result<Outcome, Failure> {
    let (file, out) = (given.at(0), given.at(1));
    let bytes = read(file)?;
    let loaded = load_sheet(file, &bytes);
    if form(&bytes) == Form::Words {
        let why = match loaded {
            Ok(_) => "these words are a sheet already".to_string(),
            Err(trouble) => trouble.to_string(),
        };
        return Err(Failure::Words(format!(
            "the file {file} doesn't hold a text\n{why}"
        )));
    }
    write(out, &loaded?.compiled.files().bytes())?;
    Ok(Outcome::Fine)
}

pub fn text(given: &Given) -> Result<Outcome, Failure> {
    let file = given.at(0);
    let sheet = load_sheet(file, &read(file)?)?;
    show(writing::sheet_text(&sheet))?;
    Ok(Outcome::Fine)
}

pub fn tidy(given: &Given) -> Result<Outcome, Failure> {
    let (file, out, json) = (given.at(0), given.at(1), given.has("--json"));
    if json && out == "-" {
        return Err(wrong("tidy", "with --json OUT can't be standard output"));
    }
    let bytes = read(file)?;
    let tidied = tidying::tidy(file, &bytes)?;
    write(out, &tidied.bytes)?;
    if json {
        tell_json(machine::tidied(file, form(&bytes), &tidied))?;
    } else {
        let bookings = counted(tidied.bookings, "booking");
        eprintln!("{file}: {} of {bookings} dropped", tidied.dropped);
    }
    Ok(Outcome::Fine)
}

pub fn print(given: &Given) -> Result<Outcome, Failure> {
    let file = given.at(0);
    let input = load_input(file, &read(file)?)?;
    show(printer::print(&input))?;
    Ok(Outcome::Fine)
}
