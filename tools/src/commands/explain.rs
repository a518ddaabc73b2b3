//! `explain`: what is wrong with a sheet, or what a refusal means that some program printed for it.

use super::{noticed, tell_json, wrong};
use crate::files::{read, show};
use crate::usage::{Failure, Given, Outcome};
use prep_tools::desk::Desk;
use prep_tools::numbers::{Card, Shape};
use prep_tools::refusal::Refusal;
use prep_tools::text::check::Sheet;
use prep_tools::text::form::form;
use prep_tools::text::load::load_sheet;
use prep_tools::text::printed::{self, Printed};
use prep_tools::text::roots::Roots;
use prep_tools::text::{machine, report};
use prep_tools::typing::Pair;

pub fn explain(given: &Given) -> Result<Outcome, Failure> {
    match given.arguments[..] {
        [file] => explain_sheet(given, file),
        [number @ ("50" | "62"), _, _] => {
            let what = format!("the place of {number} is CARD and SHAPE; one of them is missing");
            Err(wrong("explain", &what))
        }
        [_, _, file] => {
            let (number, place) = (given.number(0, "NUMBER")?, given.number(1, "PLACE")?);
            let bytes = read(file)?;
            let said = printed::refusal(file, &bytes, Refusal::at(number, place))?;
            tell(given, (file, &bytes), (number, &[place]), &said)
        }
        ["50" | "62", _, _, file] => {
            let (number, card, shape) = (
                given.number(0, "NUMBER")?,
                given.number(1, "CARD")?,
                given.number(2, "SHAPE")?,
            );
            let bytes = read(file)?;
            let said = printed::pair(file, &bytes, number, (Card(card), Shape(shape)))?;
            let place = [card, shape].map(usize::from);
            tell(given, (file, &bytes), (number, &place), &said)
        }
        _ => Err(wrong(
            "explain",
            "only the places of 50 and 62 are a card and a shape",
        )),
    }
}

/// Tells what a printed refusal means for a file, or that it isn't one of the file.
fn tell(
    given: &Given,
    (file, bytes): (&str, &[u8]),
    refusal: (u16, &[usize]),
    said: &Printed,
) -> Result<Outcome, Failure> {
    if given.has("--json") {
        tell_json(machine::printed(file, form(bytes), refusal, said))?;
    } else {
        show(&said.words)?;
    }
    Ok(noticed(!said.is_so))
}

/// What is wrong with a sheet, if anything is.
fn explain_sheet(given: &Given, file: &str) -> Result<Outcome, Failure> {
    let sheet = load_sheet(file, &read(file)?);
    if given.has("--json") {
        tell_json(match &sheet {
            Ok(sheet) => machine::unmet(sheet, file),
            Err(trouble) => machine::trouble(trouble),
        })?;
    } else {
        show(match &sheet {
            Ok(sheet) => unmet(sheet, file),
            Err(trouble) => format!("{trouble}\n"),
        })?;
    }
    Ok(noticed(!sheet.is_ok_and(|sheet| sheet.is_met())))
}

/// The pairs of 50, each with its reason.
fn unmet(sheet: &Sheet, file: &str) -> String {
    if sheet.is_met() {
        return "nothing is wrong\n".to_string();
    }
    let roots = Roots::new(&sheet.setting);
    let mut pairs: Vec<Pair> = sheet.all_not_met().map(|(_, pair)| pair).collect();
    pairs.dedup();
    let told = |pair| report::not_met(sheet, &roots, file, pair, &Desk::BOTH);
    pairs.into_iter().map(told).collect()
}
