//! *Tidy bookings*: the first booking of each pair of a stored list, in the list's order, as bookings of desk 0. The
//! refusals of a stored list, which has neither 65 nor 66, and 40.

use super::bookings::Booking;
use super::{bookings, Pair, Setting};
use crate::desk::Desk;
use crate::refusal::Refusal;

/// Tidies a stored list into a buffer that has room for three words a booking and the count. The answer is how many
/// words are written; the others stay.
pub fn tidy(template: &[u16], script: &[u16], stored: &[u16], buffer: &mut [u16]) -> Result<usize, Refusal> {
    let setting = Setting::read(template, script)?;
    let booked = bookings::read_stored(&setting, stored)?;
    if buffer.len() != 1 + 3 * booked.len() {
        return Err(Refusal::at(40, 0));
    }
    let words = bookings::words(&tidied(&setting, &booked));
    buffer[..words.len()].copy_from_slice(&words);
    Ok(words.len())
}

/// The first booking of each pair, in the list's order, by the radio.
pub fn tidied(setting: &Setting, stored: &[Pair]) -> Vec<Booking> {
    let booked = bookings::by(Desk::Radio, stored).into_iter();
    booked.filter(bookings::firsts(setting)).collect()
}

/// An answer and, behind a colon, every word of the buffer after the call.
pub fn answer(tidied: Result<usize, Refusal>, buffer: &[u16]) -> String {
    let told = match tidied {
        Ok(words) => format!("written {words}"),
        Err(refusal) => format!("refused {} {}", refusal.number, refusal.place),
    };
    let words = buffer.iter().map(|word| format!(" {word}"));
    format!("{told} :{}", words.collect::<String>())
}
