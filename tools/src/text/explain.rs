//! Refusals of a text's words: the word at fault, what it is for in the text's names, and its line and column.

use super::compile::{Compiled, Section};
use super::hints::hint;
use super::listed::Listed;
use super::refusals::refusals;
use super::roles;
use super::told::{Told, Word};
use crate::refusal::Refusal;

/// All refusals of a text's words, first the one that the readers answer.
pub fn tell_all(compiled: &Compiled, first: Refusal) -> Listed<Told> {
    let mut told = Listed::one(tell(compiled, first));
    for refusal in refusals(compiled).into_iter().filter(|refusal| *refusal != first) {
        told.note(|| tell(compiled, refusal));
    }
    told
}

/// The refusal of a text's words, told at its line and column.
pub fn tell(compiled: &Compiled, refusal: Refusal) -> Told {
    let told = tell_word(compiled, refusal);
    Told {
        note: hint(compiled, refusal),
        ..told
    }
}

fn tell_word(compiled: &Compiled, refusal: Refusal) -> Told {
    let (file, section): (&'static str, &Section) = match refusal.number {
        1..=12 | 64 => ("template", &compiled.template),
        20..=25 => ("script", &compiled.script),
        30..=33 | 63 | 65 => ("bookings", &compiled.bookings),
        66 if refusal.place > 0 => ("bookings", &compiled.bookings),
        _ => return Told::without_word(refusal, None),
    };
    let Some(origin) = section.origins.get(refusal.place) else {
        return roles::tell(&compiled.files(), refusal);
    };
    let value = section.words.get(refusal.place).copied();
    let role = origin.role.clone();
    Told::at_word(refusal, Word { file, value, role }, Some(origin.spot))
}
