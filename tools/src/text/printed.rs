//! A refusal that some program printed for a file: what it means there, if it is one of that file at all.

use super::check::Sheet;
use super::form::{form, Form};
use super::load::{compiled, load_sheet};
use super::roots::Roots;
use super::tidy::tidy;
use super::told::Told;
use super::trouble::{place, Trouble, Why};
use super::{judged, report, roles};
use crate::desk::Desk;
use crate::refusal::Refusal;
use crate::sheet::{self, Files};
use crate::template;
use crate::typing::{bookings, Pair, Setting};

/// What is said about a printed refusal.
#[derive(Clone, PartialEq, Eq, Debug)]
pub struct Printed {
    /// Whether it is one of the file: some operation answers it, or `check` tells it.
    pub is_so: bool,
    /// The refusal with all that is known about it; if it isn't so, that of the file itself. None for 50 and 62, and
    /// if there is nothing to refuse.
    pub refusal: Option<Told>,
    /// All of this in words.
    pub words: String,
}

/// What is said about a refusal with a place. An error is a file that has no words.
pub fn refusal(file: &str, bytes: &[u8], refusal: Refusal) -> Result<Printed, Trouble> {
    let loaded = load(file, bytes)?;
    let mut own = loaded.as_ref().err().into_iter().flatten();
    let found = own
        .find(|told| told.refusal == refusal)
        .cloned()
        .or_else(|| of_call(&loaded, bytes, refusal))
        .or_else(|| of_tidying(file, bytes, refusal));
    let asked = format!("{} {}", refusal.number, refusal.place);
    Ok(match (found, loaded) {
        (Some(told), _) => Printed {
            is_so: true,
            words: format!("{}: {told}\n", place(file, told.spot)),
            refusal: Some(told),
        },
        (None, Err(own)) => refused_otherwise(file, &asked, &own),
        (None, Ok(_)) => not_so(file, &asked, ": template, script and bookings are well-formed"),
    })
}

/// What is said about 50 or 62 with its pair.
pub fn pair(file: &str, bytes: &[u8], number: u16, pair: Pair) -> Result<Printed, Trouble> {
    let asked = format!("{number} {} {}", pair.0 .0, pair.1 .0);
    let sheet = match load(file, bytes)? {
        Ok(sheet) => sheet,
        Err(own) => return Ok(refused_otherwise(file, &asked, &own)),
    };
    if pair.0 .0 >= sheet.setting.script.cards || pair.1 .0 >= sheet.setting.template.shapes() {
        return Ok(not_so(file, &asked, ": there is no such card or no such shape"));
    }
    Ok(match number {
        50 => not_met(&sheet, file, &asked, pair),
        _ => not_met_under_grid(&sheet, file, &asked, pair),
    })
}

/// The sheet of a file, or its refusals: first the one that the operations answer, then those that `check` tells too.
type Loaded = Result<Sheet, Vec<Told>>;

fn load(file: &str, bytes: &[u8]) -> Result<Loaded, Trouble> {
    match load_sheet(file, bytes) {
        Ok(sheet) => Ok(Ok(sheet)),
        Err(trouble) => match trouble.why {
            Why::Short(_) => Ok(Err(vec![roles::tell_input(bytes)])),
            Why::Refused(refusals) => Ok(Err(refusals.told)),
            Why::Faults(_) => Err(trouble),
        },
    }
}

fn so(words: String) -> Printed {
    Printed {
        is_so: true,
        refusal: None,
        words,
    }
}

fn not_so(file: &str, asked: &str, why: &str) -> Printed {
    Printed {
        is_so: false,
        refusal: None,
        words: format!("{file}: this isn't refused with {asked}{why}\n"),
    }
}

fn refused_otherwise(file: &str, asked: &str, own: &[Told]) -> Printed {
    let own = own.first();
    let why = own.map(|own| format!(", but so:\n{}: {own}", place(file, own.spot)));
    let why = why.unwrap_or_default();
    Printed {
        refusal: own.cloned(),
        ..not_so(file, asked, &why)
    }
}

/// A refusal that is up to what a call is given besides the files.
fn of_call(loaded: &Loaded, bytes: &[u8], refusal: Refusal) -> Option<Told> {
    let files = match form(bytes) {
        Form::Text => compiled(bytes).ok()?.1.files(),
        Form::Words => sheet::split(bytes).ok()?,
    };
    let sheet = loaded.as_ref();
    is_of_call(&files, refusal).then(|| match (refusal.number, sheet) {
        (40, _) => {
            let note = "Tidy bookings says it of the array for the tidied list, 1 + 3 x bookings words";
            Told::without_word(refusal, Some(note.to_string()))
        }
        (61, Ok(sheet)) => judged::byte(sheet, refusal.place, None),
        (63, Ok(sheet)) => judged::booking(sheet, refusal),
        (66, _) => {
            let note = "it is the desk that the call asks for, not one of the bookings'";
            Told::without_word(refusal, Some(note.to_string()))
        }
        _ => Told::without_word(refusal, None),
    })
}

/// Whether some call on these files may answer a refusal by what else it is given: a grid, counts, a shape, a desk.
fn is_of_call(files: &Files, Refusal { number, place }: Refusal) -> bool {
    let Ok(template) = template::read(&files.template) else {
        return false;
    };
    let Ok(setting) = Setting::read(&files.template, &files.script) else {
        return is_of_counts(number, place, template.kinds);
    };
    let is_list_read = bookings::read(&setting, &files.bookings).is_ok();
    match number {
        40 => place == 0,
        61 => is_list_read && place < setting.size(),
        63 => is_list_read && place % 3 == 2 && place < files.bookings.len(),
        66 => is_list_read && place == 0,
        _ => is_of_counts(number, place, template.kinds),
    }
}

/// Whether *Fit counts* may answer a refusal under a template with so many kinds.
fn is_of_counts(number: u16, place: usize, kinds: u16) -> bool {
    match number {
        41 | 42 => place == 0,
        43 => place < 2 * usize::from(kinds),
        _ => false,
    }
}

/// The refusal with which the bookings can't be tidied.
fn of_tidying(file: &str, bytes: &[u8], refusal: Refusal) -> Option<Told> {
    match tidy(file, bytes).err()?.why {
        Why::Refused(refusals) => refusals.told.into_iter().find(|told| told.refusal == refusal),
        _ => None,
    }
}

/// 50: why the pair isn't met, and which desks' bookings are turned down for it.
fn not_met(sheet: &Sheet, file: &str, asked: &str, pair: Pair) -> Printed {
    let words = report::not_met(sheet, &Roots::new(&sheet.setting), file, pair, &Desk::BOTH);
    let all: Vec<(Desk, Pair)> = sheet.all_not_met().collect();
    if all.iter().any(|(_, not_met)| *not_met == pair) {
        return so(words);
    }
    let others = all.iter().map(|(desk, (card, shape))| {
        let name = desk.name();
        format!("; {name} is with 50 {} {}", card.0, shape.0)
    });
    let not_so = not_so(file, asked, &others.collect::<String>());
    Printed {
        words: not_so.words + &words,
        ..not_so
    }
}

/// 62: what the pair asks for, as far as that can be told without the grid.
fn not_met_under_grid(sheet: &Sheet, file: &str, asked: &str, pair: Pair) -> Printed {
    if let Some(words) = judged::explain_pair(sheet, file, pair) {
        return so(words);
    }
    let (text, (card, shape)) = (&sheet.text, pair);
    let (who, what) = (text.card_title(card.index()), text.shape_name(shape.index()));
    let why = format!(": {who} needs no other card and can be {what} under every grid");
    not_so(file, asked, &why)
}
