//! Sheets that put a question of *Fit counts* to the printer.

use super::parts::any_outgoing;
use super::scripts::{self, Links};
use crate::desk::Desk;
use crate::labels::{Labelled, Way};
use crate::numbers::{Card, Shape};
use crate::script::{MOST_CARDS, MOST_LINKS};
use crate::sheet::Files;
use crate::template::{self, Definition, Link, Template};
use crate::typing::bookings;

/// A sheet whose bookings are met exactly if the counts fit the shape. Card 0 has that many links with each label, and
/// is booked for shape 0, which is the one asked about. At their far ends are cards with shape 1, which takes any links
/// to card 0 and is what shape 0 asks for. None if there are too many links.
pub fn sheet(asked: &Definition, counts: &Labelled<u16>) -> Option<Files> {
    let mut links = Links::new();
    for (label, count) in counts.iter() {
        let kind = label.kind.0;
        links.extend((1..=*count).map(|far| match label.way {
            Way::Outgoing => (0, kind, far),
            Way::Incoming => (far, kind, 0),
        }));
    }
    let most = counts.values().iter().max()?;
    if *most >= MOST_CARDS || links.len() > usize::from(MOST_LINKS) {
        return None;
    }
    let to_second = |link: Link| Link {
        shape: Shape(1),
        ..link
    };
    let first = Definition {
        part: asked.part.with_links(&to_second),
        ..*asked
    };
    let second = Definition::closed(any_outgoing(counts.kinds(), 0));
    let template = Template {
        kinds: counts.kinds(),
        definitions: vec![first, second],
    };
    Some(Files {
        template: template::write(&template),
        script: scripts::words(1 + most, &links),
        bookings: bookings::words(&[(Desk::Radio, (Card(0), Shape(0)))]),
    })
}
