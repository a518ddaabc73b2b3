//! All refusals of a text's words, in the order in which the readers find them. A reader of words stops at the first
//! refusal; the words of a text are whole in all but a few things, so that one can look on behind it.

use super::compile::Compiled;
use crate::desk::Desk;
use crate::labels::Label;
use crate::refusal::Refusal;
use crate::script::{MOST_CARDS, MOST_LINKS};
use crate::sheet::MOST_BYTES;
use crate::template::{label_of, MOST_COUNT, MOST_DEPTH, MOST_GROUP, MOST_KINDS, MOST_SHAPES, MOST_WORDS};
use crate::template::{ALL, CHOICE, NOTHING, NO_LIMIT, OPEN, OPTIONAL, PLUS, STAR};
use crate::typing::bookings::{self, MOST_BOOKINGS};
use std::collections::{BTreeSet, HashSet};

/// All refusals of a text's words.
pub fn refusals(compiled: &Compiled) -> Vec<Refusal> {
    let mut refusals = Vec::new();
    if compiled.files().bytes().len() > MOST_BYTES {
        refusals.push(Refusal::at(60, 0));
    }
    template(&compiled.template.words, &mut refusals);
    script(&compiled.script.words, &mut refusals);
    booking_list(&compiled.bookings.words, &mut refusals);
    refusals
}

/// Those of a template: 1 to 3, and of its shapes 6, 8, 10 and 11.
fn template(words: &[u16], refusals: &mut Vec<Refusal>) {
    let (kinds, shapes) = (words[0], words[1]);
    let counts = [
        (1, 0, words.len() > MOST_WORDS),
        (2, 0, !(1..=MOST_KINDS).contains(&kinds)),
        (3, 1, !(1..=MOST_SHAPES).contains(&shapes)),
    ];
    let wrong = counts.into_iter().filter(|(_, _, is_wrong)| *is_wrong);
    refusals.extend(wrong.map(|(number, place, _)| Refusal::at(number, place)));
    if kinds > MOST_KINDS {
        // The codes of so many kinds run into those of links that arrive.
        return;
    }
    let mut next = 2;
    for _ in 0..shapes {
        let mut walk = Walk {
            words,
            next: next + 1,
            named: BTreeSet::new(),
            refusals,
        };
        if words[walk.next] == OPEN {
            walk.next += 1;
        }
        walk.part(1);
        next = walk.next;
    }
}

/// A walk over the part of a shape.
struct Walk<'a> {
    words: &'a [u16],
    next: usize,
    named: BTreeSet<Label>,
    refusals: &'a mut Vec<Refusal>,
}

impl Walk<'_> {
    fn refuse_if(&mut self, is_wrong: bool, number: u16, place: usize) {
        if is_wrong {
            self.refusals.push(Refusal::at(number, place));
        }
    }

    /// The part that starts here, at this depth. Of parts within each other only the first too deep one is refused.
    fn part(&mut self, depth: usize) {
        let place = self.next;
        self.refuse_if(depth == MOST_DEPTH + 1, 6, place);
        self.next += 1;
        match self.words[place] {
            NOTHING => {}
            STAR | PLUS | OPTIONAL => self.part(depth + 1),
            CHOICE | ALL => {
                let count = self.words[place + 1];
                self.refuse_if(!(2..=MOST_GROUP).contains(&count), 11, place + 1);
                self.next += 1;
                for _ in 0..count {
                    self.part(depth + 1);
                }
            }
            code => self.link(code, place),
        }
    }

    fn link(&mut self, code: u16, place: usize) {
        let stands_twice = label_of(code).is_some_and(|label| !self.named.insert(label));
        self.refuse_if(stands_twice, 8, place);
        let (low, high) = (self.words[place + 2], self.words[place + 3]);
        let is_high_wrong = high != NO_LIMIT && !(low..=MOST_COUNT).contains(&high);
        self.refuse_if(low > MOST_COUNT || is_high_wrong, 10, place + 2);
        self.next = place + 4;
    }
}

/// Those of a script: 21, 22, and 25 for each link that stands there again.
fn script(words: &[u16], refusals: &mut Vec<Refusal>) {
    if words[0] > MOST_CARDS {
        refusals.push(Refusal::at(21, 0));
    }
    if words[1] > MOST_LINKS {
        refusals.push(Refusal::at(22, 1));
    }
    let links: Vec<&[u16]> = words[2..].chunks_exact(3).collect();
    let again = (1..links.len()).filter(|link| links[link - 1] == links[*link]);
    refusals.extend(again.map(|link| Refusal::at(25, 2 + 3 * link)));
}

/// Those of a booking list: 31, 66 for each desk that there isn't, and 65 for each booking that stands there again.
fn booking_list(words: &[u16], refusals: &mut Vec<Refusal>) {
    if words[0] > MOST_BOOKINGS {
        refusals.push(Refusal::at(31, 0));
    }
    let mut booked = HashSet::new();
    for (booking, place) in bookings::cut::<3>(words).into_iter().zip((1..).step_by(3)) {
        if Desk::numbered(booking[0]).is_none() {
            refusals.push(Refusal::at(66, place));
        } else if !booked.insert(booking) {
            refusals.push(Refusal::at(65, place + 1));
        }
    }
}
