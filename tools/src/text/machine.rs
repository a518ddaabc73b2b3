//! What commands tell, as JSON for machines. docs/JSON.md tells the fields.
//!
//! | here       | what                                                        |
//! |------------|-------------------------------------------------------------|
//! | `fields`   | places, refusals, pairs, labels and typings                 |
//! | `outcomes` | what a sheet comes to: its typings, what isn't met, and why |

pub mod fields;
pub mod outcomes;

use super::check::Sheet;
use super::form::Form;
use super::json::Json;
use super::judged::{Accepted, NotMet, Verdict};
use super::listed::Listed;
use super::printed::Printed;
use super::roots::Roots;
use super::sentences::because;
use super::tidy::Tidied;
use super::trouble::{too_short, Trouble, Why};
use crate::desk::Desk;
use crate::refusal::Refusal;
use fields::{desk_fields, lack, pair_fields, place, refusal};

/// The version of the fields. It changes when a field goes or comes to mean something else.
pub const FORMAT: usize = 1;

/// Named values.
type Fields = Vec<(&'static str, Json)>;

/// What every outcome starts with.
fn head(file: &str, form: Form, outcome: &str) -> Fields {
    let form = match form {
        Form::Text => "text",
        Form::Words => "words",
    };
    vec![
        ("format", Json::count(FORMAT)),
        ("file", Json::text(file)),
        ("form", Json::text(form)),
        ("outcome", Json::text(outcome)),
    ]
}

/// `check`: the outcome of a sheet.
pub fn outcome(sheet: &Sheet, file: &str) -> Json {
    let roots = Roots::new(&sheet.setting);
    let mut fields = head(file, sheet.form, met(sheet));
    fields.extend(outcomes::contents(sheet));
    fields.push(("largest", outcomes::largest(sheet)));
    fields.push(("desks", outcomes::desks(sheet, &roots)));
    fields.push(("bare", outcomes::bare_cards(sheet, &roots)));
    fields.push(("cards", outcomes::cards(sheet)));
    Json::Fields(fields)
}

/// `explain FILE`: only what isn't met.
pub fn unmet(sheet: &Sheet, file: &str) -> Json {
    let mut fields = head(file, sheet.form, met(sheet));
    fields.push(("desks", outcomes::desks(sheet, &Roots::new(&sheet.setting))));
    Json::Fields(fields)
}

fn met(sheet: &Sheet) -> &'static str {
    if sheet.is_met() {
        "met"
    } else {
        "unmet"
    }
}

/// Why a file isn't a sheet.
pub fn trouble(trouble: &Trouble) -> Json {
    let (outcome, name, list, more) = match &trouble.why {
        Why::Short(bytes) => {
            let fault = fields::fault(None, &too_short(*bytes));
            ("fault", "faults", Json::List(vec![fault]), 0)
        }
        Why::Faults(Listed { told, more }) => {
            let fault = |fault: &super::Fault| fields::fault(Some(fault.spot), &fault.message);
            ("fault", "faults", Json::list(told, fault), *more)
        }
        Why::Refused(Listed { told, more }) => ("refused", "refusals", Json::list(told, refusal), *more),
    };
    let mut fields = head(&trouble.file, trouble.form, outcome);
    fields.extend([(name, list), ("more", Json::count(more))]);
    Json::Fields(fields)
}

/// `explain NUMBER ...`: what a printed refusal means, which has a place or, for 50 and 62, a card and a shape.
pub fn printed(file: &str, form: Form, (number, place): (u16, &[usize]), printed: &Printed) -> Json {
    let outcome = if printed.is_so { "explained" } else { "not_so" };
    let mut fields = head(file, form, outcome);
    fields.extend([
        ("number", Json::count(number.into())),
        ("place", Json::list(place, |number| Json::count(*number))),
        ("refusal", Json::maybe(printed.refusal.as_ref(), refusal)),
        ("told", Json::list(printed.words.lines(), Json::text)),
    ]);
    Json::Fields(fields)
}

/// `judge`: what is said about a grid.
pub fn judged(sheet: &Sheet, file: &str, desk: Desk, verdict: &Verdict) -> Json {
    let (outcome, more) = match verdict {
        Verdict::Accepted(accepted) => ("accepted", pairs(accepted)),
        Verdict::NotMet(not_met) => ("not_accepted", vec![("refusal", pair_not_met(sheet, not_met))]),
        Verdict::Refused(told) => ("not_accepted", vec![("refusal", refusal(told))]),
    };
    let mut fields = head(file, sheet.form, outcome);
    fields.extend(desk_fields(desk));
    fields.extend(more);
    Json::Fields(fields)
}

fn pairs(accepted: &Accepted) -> Fields {
    vec![
        ("booked", Json::count(accepted.booked)),
        ("pairs", Json::count(accepted.pairs)),
        ("smallest", Json::count(accepted.smallest)),
        ("largest", Json::count(accepted.largest)),
    ]
}

/// Refusal 62.
fn pair_not_met(sheet: &Sheet, not_met: &NotMet) -> Json {
    let lacks = not_met.misfit.iter().flat_map(|misfit| &misfit.lacks);
    let missing = Json::list(&not_met.missing, |(_, pair)| {
        Json::Fields(pair_fields(sheet, *pair))
    });
    let never = not_met.never.as_ref();
    let mut fields = vec![
        ("number", Json::count(62)),
        ("message", Json::text(Refusal::at(62, 0).meaning())),
    ];
    fields.extend(pair_fields(sheet, not_met.pair));
    fields.extend(place(sheet.card_spot(not_met.pair.0.index())));
    fields.extend([
        ("reason", Json::text(not_met.why(sheet))),
        ("lacks", Json::list(lacks, |one| lack(sheet, one))),
        ("missing", missing),
        (
            "never",
            Json::maybe(never, |reason| Json::text(because(&sheet.text, reason))),
        ),
    ]);
    Json::Fields(fields)
}

/// `tidy`: how many bookings there were, and how many are dropped.
pub fn tidied(file: &str, form: Form, tidied: &Tidied) -> Json {
    let mut fields = head(file, form, "tidied");
    fields.extend([
        ("bookings", Json::count(tidied.bookings)),
        ("dropped", Json::count(tidied.dropped)),
    ]);
    Json::Fields(fields)
}
