//! What the word at a place of a file is for, as far as the file can be followed, and refusals told with it.

use super::told::{Told, Word};
use crate::labels::Way;
use crate::refusal::Refusal;
use crate::sheet::{Files, MOST_BYTES};
use crate::template::{label_of, CHOICE, MOST_DEPTH, NOTHING, OPEN, OPTIONAL, PLUS, STAR};

/// The file that a refusal's place is counted in: its name and its words. None for 40 to 43, 60 and 61. The place of a
/// call's own desk, 66 at 0, isn't counted in a file.
pub fn file_of(files: &Files, refusal: Refusal) -> Option<(&'static str, &[u16])> {
    match refusal.number {
        1..=12 | 64 => Some(("template", &files.template)),
        20..=25 => Some(("script", &files.script)),
        30..=33 | 63 | 65 => Some(("bookings", &files.bookings)),
        66 if refusal.place > 0 => Some(("bookings", &files.bookings)),
        _ => None,
    }
}

/// A refusal of these files, with what the word at fault is for.
pub fn tell(files: &Files, refusal: Refusal) -> Told {
    tell_with(files, refusal, booking_role, note)
}

/// The same if the bookings are a stored list.
pub fn tell_stored(files: &Files, refusal: Refusal) -> Told {
    tell_with(files, refusal, stored_role, stored_note)
}

fn tell_with(
    files: &Files,
    refusal: Refusal,
    booking_role: fn(usize) -> String,
    note: fn(&[u16], Refusal) -> Option<String>,
) -> Told {
    let Some((file, words)) = file_of(files, refusal) else {
        return Told::without_word(refusal, None);
    };
    let role = match file {
        "template" => template_role(words, refusal.place),
        "script" => script_role(refusal.place),
        _ => booking_role(refusal.place),
    };
    let value = words.get(refusal.place).copied();
    let told = Told::at_word(refusal, Word { file, value, role }, None);
    Told {
        note: note(words, refusal),
        ..told
    }
}

/// What there is to say about 30 and 65 beyond the word at fault.
fn note(words: &[u16], refusal: Refusal) -> Option<String> {
    match refusal.number {
        30 if has_words_each(words, 2) => {
            let told = "it has two words for each booking, as a stored list has: `tidy` puts the desks in";
            Some(told.to_string())
        }
        65 => {
            let first = first_place(words, refusal.place)?;
            Some(format!(
                "its desk and its pair are those of booking {}",
                (first - 2) / 3
            ))
        }
        _ => None,
    }
}

/// The same for a stored list, which has only 30.
fn stored_note(words: &[u16], refusal: Refusal) -> Option<String> {
    let has_desks = refusal.number == 30 && has_words_each(words, 3);
    has_desks.then(|| "it has three words for each booking: the desks are there already".to_string())
}

/// Whether a list has bookings, and so many words for each.
fn has_words_each(words: &[u16], size: usize) -> bool {
    let count = words.first().map_or(0, |count| usize::from(*count));
    count > 0 && words.len() == 1 + size * count
}

/// Refusal 60 of an input that can't be cut into three files, and why it can't.
pub fn tell_input(input: &[u8]) -> Told {
    Told::without_word(Refusal::at(60, 0), Some(why_not_cut(input)))
}

fn why_not_cut(input: &[u8]) -> String {
    match input {
        [] => return "it is empty".to_string(),
        [0xff, 0xfe, ..] | [0xfe, 0xff, ..] => {
            return "it looks like a text in UTF-16; save it as UTF-8".to_string();
        }
        _ => {}
    }
    if input.len() > MOST_BYTES {
        return format!("it has {} bytes", input.len());
    }
    if input.len() % 2 != 0 {
        return match input.len() {
            1 => "its 1 byte isn't a whole word".to_string(),
            bytes => format!("its {bytes} bytes aren't whole words"),
        };
    }
    let words: Vec<u16> = input
        .chunks_exact(2)
        .map(|two| u16::from_le_bytes([two[0], two[1]]))
        .collect();
    let mut place = 0;
    for name in ["template", "script", "bookings"] {
        let Some(count) = words.get(place) else {
            return format!("it ends at word {place}, where the {name}'s count would be");
        };
        let left = words.len() - place - 1;
        if usize::from(*count) > left {
            let follow = follow(left);
            return format!("word {place}, the {name}'s count, is {count}, but only {follow}");
        }
        place += 1 + usize::from(*count);
    }
    let follow = follow(words.len() - place);
    format!("the bookings end before word {place}, but {follow}")
}

/// How many words follow.
fn follow(words: usize) -> String {
    match words {
        1 => "1 word follows".to_string(),
        _ => format!("{words} words follow"),
    }
}

/// What the word at this place of a template is for.
pub fn template_role(words: &[u16], place: usize) -> String {
    match place {
        0 => return "the count of kinds".to_string(),
        1 => return "the count of shapes".to_string(),
        _ => {}
    }
    let mut walk = Walk {
        words,
        place: 2,
        end: words.len(),
        roles: vec![],
    };
    let shapes = words.get(1).copied().unwrap_or(0);
    for shape in 0..shapes {
        walk.end = words.len();
        let start = walk.place;
        walk.note(format!("the count of words of shape {shape}"));
        let Some(count) = words.get(start) else { break };
        walk.end = (walk.place + usize::from(*count)).min(words.len());
        if words[walk.place..walk.end].first() == Some(&OPEN) {
            walk.note(format!("the code that makes shape {shape} open"));
        }
        let whole = walk.part(shape, 1).is_some();
        walk.roles.push((walk.end, format!("the end of shape {shape}")));
        if !whole || walk.place != walk.end {
            if place < walk.end && walk.place <= place {
                return format!("after the part of shape {shape} has ended");
            }
            break;
        }
    }
    let found = walk.roles.iter().find(|(noted, _)| *noted == place);
    match found {
        Some((_, role)) => role.clone(),
        None => "after all shapes, or after the first fault".to_string(),
    }
}

/// A walk over the words of a template that stops at the first word that makes no sense.
struct Walk<'a> {
    words: &'a [u16],
    place: usize,
    end: usize,
    roles: Vec<(usize, String)>,
}

impl Walk<'_> {
    /// Notes what the next word is for and steps over it.
    fn note(&mut self, role: String) {
        self.roles.push((self.place, role));
        self.place += 1;
    }

    /// The part that starts here; none if it can't be followed to its end.
    fn part(&mut self, shape: u16, depth: usize) -> Option<()> {
        let within = format!("in shape {shape}, at depth {depth}");
        if self.place >= self.end || depth > MOST_DEPTH + 1 {
            self.note(format!("the code of a part {within}"));
            return None;
        }
        let code = self.words[self.place];
        match code {
            NOTHING => self.note(format!("nothing, {within}")),
            STAR | PLUS | OPTIONAL => {
                let name = ["star", "plus", "optional"][usize::from(code - STAR)];
                self.note(format!("the code of {name} {within}"));
                self.part(shape, depth + 1)?;
            }
            16 | 17 => {
                let name = if code == CHOICE { "choice" } else { "all" };
                self.note(format!("the code of {name} {within}"));
                let count = self.words.get(self.place).copied().unwrap_or(0);
                self.note(format!("the count of parts of {name} {within}"));
                for _ in 0..count {
                    self.part(shape, depth + 1)?;
                }
            }
            OPEN => {
                let role = "the code that makes a shape open, where a part's code is wanted";
                self.note(format!("{role} {within}"));
                return None;
            }
            _ => return self.link(code, &within),
        }
        Some(())
    }

    /// The words of a link with this code; none if it isn't the code of a link.
    fn link(&mut self, code: u16, within: &str) -> Option<()> {
        let Some(label) = label_of(code) else {
            self.note(format!("the code of a part {within}"));
            return None;
        };
        let what = match label.way {
            Way::Outgoing => "link",
            Way::Incoming => "arriving link",
        };
        let of = format!("the {what} of kind {} {within}", label.kind.0);
        for word in ["code", "shape", "low", "high"] {
            self.note(format!("the {word} of {of}"));
        }
        Some(())
    }
}

/// What the word at this place of a script is for.
pub fn script_role(place: usize) -> String {
    match place {
        0 => "the count of cards".to_string(),
        1 => "the count of links".to_string(),
        _ => {
            let word = ["start", "kind", "target"][(place - 2) % 3];
            format!("the {word} of link {}, counted from 0", (place - 2) / 3)
        }
    }
}

/// The place of the card of the first booking with the desk and the pair of the one at a place; none if there is no
/// earlier one.
pub fn first_place(bookings: &[u16], place: usize) -> Option<usize> {
    let booking = bookings.get(place.checked_sub(1)?..)?.first_chunk::<3>()?;
    let mut places = (2..place).step_by(3);
    places.find(|earlier| place % 3 == 2 && bookings[earlier - 1..].starts_with(booking))
}

/// What the word at this place of the bookings is for.
pub fn booking_role(place: usize) -> String {
    list_role(place, &["desk", "card", "shape"])
}

/// What the word at this place of a stored list is for.
fn stored_role(place: usize) -> String {
    list_role(place, &["card", "shape"])
}

/// What a word is for in a list that has these words for each booking.
fn list_role(place: usize, words: &[&str]) -> String {
    let Some(place) = place.checked_sub(1) else {
        return "the count of bookings".to_string();
    };
    let (word, booking) = (words[place % words.len()], place / words.len());
    format!("the {word} of booking {booking}, counted from 0")
}
