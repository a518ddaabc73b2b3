//! Sheets on which strikes and closures run against the links, or along and against them in turn.

use super::parts::{any_outgoing, incoming, outgoing};
use super::scripts;
use crate::desk::Desk;
use crate::numbers::{Card, Shape};
use crate::sheet::Files;
use crate::template::{self, Part, Template};
use crate::typing::bookings;

/// Each card leads to the next one, and has to be led to by one that has shape 0 too; shape 1 is for any card. If the
/// chain isn't closed, each round strikes its first card that is left, so there are as many rounds as cards and one
/// more.
pub fn chain_back(cards: u16, closed: bool) -> Files {
    let led_to = Part::All(vec![outgoing(0, 1, 0, None), incoming(0, 0, 1, Some(1))]);
    let mut links: scripts::Links = (1..cards).map(|to| (to - 1, 0, to)).collect();
    if closed {
        links.insert((cards - 1, 0, 0));
    }
    sheet(1, vec![led_to, any_outgoing(1, 1)], cards, &links, cards / 2)
}

/// Cards with even numbers have shape 0 and lead to their neighbours, which have shape 1 and are led to. So whatever is
/// asked for goes along a link and against the next one. If the row is broken, the last card can't have its shape, and
/// each round takes one card more.
pub fn zigzag(cards: u16, broken: bool) -> Files {
    let parts = vec![outgoing(0, 1, 1, Some(2)), incoming(0, 0, 1, Some(2))];
    let ends = (1..cards).map(|card| (card - card % 2, card - (card + 1) % 2));
    let mut links: scripts::Links = ends.map(|(from, to)| (from, 0, to)).collect();
    if broken {
        links.insert((cards - 1, 1, cards - 1));
    }
    sheet(2, parts, cards, &links, 0)
}

/// A sheet on which each round but the last strikes one pair, against the links, until only the last shape is left,
/// which every card has; so there are N × S + 1 rounds. The counts of cards and of the other shapes, S, must have no
/// common factor.
///
/// The cards form a ring, and shape t asks for shape t + 1 at the card before. At card 0 one link more arrives, of a
/// kind that all of these shapes but shape 0 take.
pub fn longest_back(cards: u16, shapes: u16) -> Files {
    let ring = (0..shapes).map(|shape| {
        let next = (shape + 1) % shapes;
        Part::All(vec![
            incoming(0, next, 1, Some(1)),
            incoming(1, next, 0, Some(shape.min(1))),
            any_outgoing(2, shapes),
        ])
    });
    let parts = ring.chain([any_outgoing(2, shapes)]).collect();
    let mut links: scripts::Links = (0..cards).map(|card| (card, 0, (card + 1) % cards)).collect();
    links.insert((cards - 1, 1, 0));
    sheet(2, parts, cards, &links, cards - 1)
}

/// A sheet with shape 0 booked for one card, by both desks.
fn sheet(kinds: u16, parts: Vec<Part>, cards: u16, links: &scripts::Links, booked: u16) -> Files {
    Files {
        template: template::write(&Template::closed(kinds, parts)),
        script: scripts::words(cards, links),
        bookings: bookings::words(&Desk::BOTH.map(|desk| (desk, (Card(booked), Shape(0))))),
    }
}
