//! Commands that make, run and compare cases.

use super::noticed;
use crate::files::{read, show};
use crate::usage::{perhaps, Failure, Given, Outcome};
use prep_tools::sheet::Files;
use prep_tools::{cases, compare, fit, generate, page, samples};
use std::io;
use std::path::Path;

/// Answers the lines of standard input.
pub fn fit(_: &Given) -> Result<Outcome, Failure> {
    let text = String::from_utf8(read("-")?).map_err(|_| "standard input isn't a text".to_string())?;
    let mut out = String::new();
    for (line, content) in text.lines().enumerate() {
        out += &fit::lines::answer(content).map_err(|error| format!("line {}: {error}", line + 1))?;
        out.push('\n');
    }
    show(out)?;
    Ok(Outcome::Fine)
}

pub fn samples(_: &Given) -> Result<Outcome, Failure> {
    show(samples::table_text()?)?;
    Ok(Outcome::Fine)
}

pub fn cases(given: &Given) -> Result<Outcome, Failure> {
    let made = match given.arguments.len() {
        2 => cases::stored()?,
        _ => cases::generated(given.number(2, "SEED")?, given.number(3, "COUNT")?),
    };
    cases::write(Path::new(given.at(0)), Path::new(given.at(1)), &made)?;
    Ok(Outcome::Fine)
}

pub fn program_cases(given: &Given) -> Result<Outcome, Failure> {
    let made = cases::programs::cases();
    cases::write(Path::new(given.at(0)), Path::new(given.at(1)), &made)?;
    Ok(Outcome::Fine)
}

pub fn desk_pairs(given: &Given) -> Result<Outcome, Failure> {
    cases::desk_pairs(
        Path::new(given.at(0)),
        given.number(1, "SEED")?,
        given.number(2, "COUNT")?,
    )?;
    Ok(Outcome::Fine)
}

pub fn compare(given: &Given) -> Result<Outcome, Failure> {
    let (seed, count) = (given.number(1, "SEED")?, given.number(2, "COUNT")?);
    let cases: Box<dyn Iterator<Item = generate::Case>> = match given.has("--alike") {
        true => Box::new(generate::alike_cases(seed, count)),
        false => Box::new(generate::cases(seed, count)),
    };
    let outcome = compare::compare(given.at(0), seed, cases, &mut io::stdout())?;
    Ok(noticed(outcome.differ > 0))
}

pub fn page(given: &Given) -> Result<Outcome, Failure> {
    let file = given.at(0);
    let text = String::from_utf8(read(file)?).map_err(|_| format!("{file} isn't a text"))?;
    let right = page::run(file, &text, &given.options)?;
    Ok(noticed(!right))
}

/// Writes a fixed input by its name.
pub fn input(given: &Given) -> Result<Outcome, Failure> {
    let name = given.at(0);
    let inputs: Vec<generate::Case> = generate::cases(0, generate::fixed()).collect();
    let Some(input) = inputs.iter().find(|input| input.name == name) else {
        let hint = perhaps(name, inputs.iter().map(|input| input.name.as_str()));
        return Err(Failure::Words(format!("no input is named {name}{hint}")));
    };
    show(&input.bytes)?;
    Ok(Outcome::Fine)
}

pub fn longest(given: &Given) -> Result<Outcome, Failure> {
    let (cards, shapes) = (given.number(0, "CARDS")?, given.number(1, "SHAPES")?);
    let (most, make): (u16, fn(u16, u16) -> Files) = match given.has("--back") {
        true => (31, generate::turns::longest_back),
        false => (32, generate::special::longest),
    };
    if !(2..=1024).contains(&cards) || !(1..=most).contains(&shapes) {
        let rule = format!("the cards must be 2 to 1024 and the shapes 1 to {most}");
        return Err(Failure::Words(rule));
    }
    if let factor @ 2.. = common_factor(cards, shapes) {
        let rule = "CARDS and SHAPES must have no common factor";
        let broken = format!("{cards} and {shapes} have the common factor {factor}");
        return Err(Failure::Words(format!("{rule}; {broken}")));
    }
    show(make(cards, shapes).bytes())?;
    Ok(Outcome::Fine)
}

/// The greatest common factor.
fn common_factor(one: u16, two: u16) -> u16 {
    match two {
        0 => one,
        _ => common_factor(two, one % two),
    }
}
