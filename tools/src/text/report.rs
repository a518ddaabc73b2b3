//! The outcome of a sheet in words: first what bookings ask for and can't be met, then the cards with links and no
//! shape, those that are to blame themselves before those that only lead there.

use super::check::Sheet;
use super::reasons::{all_not_met, path, reason, reasons, Reason};
use super::roots::Roots;
use super::sentences::{because, booked_by, cannot};
use super::trouble::place;
use crate::desk::Desk;
use crate::numbers::{Card, Shape};
use crate::typing::{Pair, Smallest};

/// The outcome in words.
pub fn report(sheet: &Sheet, file: &str) -> String {
    let roots = Roots::new(&sheet.setting);
    let mut report = head(sheet, file);
    for desk in Desk::BOTH {
        report += &smallest(sheet, &roots, file, desk);
    }
    let largest = &sheet.typings.largest.0;
    let (rounds, struck) = (counted(largest.rounds, "round"), counted(largest.struck, "pair"));
    report += &format!("largest: {rounds}, {struck} struck\n");
    report += &typing(sheet, &sheet.typings.largest.1);
    for (card, reasons) in bare(sheet, &roots) {
        report += &no_shape(sheet, file, card, &reasons);
    }
    report
}

/// A desk's smallest typing, or what its bookings ask for and can't be met.
fn smallest(sheet: &Sheet, roots: &Roots, file: &str, desk: Desk) -> String {
    let start = format!("smallest for {}", desk.name());
    let (answer, grid) = &sheet.typings.smallest[desk.index()];
    match answer {
        Smallest::Pairs(0) => return format!("{start}: 0 pairs, as it books nothing\n"),
        Smallest::Pairs(pairs) => {
            let met = if *pairs == 1 {
                "which is met"
            } else {
                "each of them met"
            };
            let pairs = counted(*pairs, "pair");
            return format!("{start}: {pairs}, {met}\n{}", typing(sheet, grid));
        }
        Smallest::NotMet(..) => {}
    }
    let mut told = format!("{start}: none, as not all that it books can be met\n");
    for (order, reason) in all_not_met(sheet, roots, desk).iter().enumerate() {
        if order == 0 {
            told += &not_met(sheet, roots, file, reason.pair, &[desk]);
        } else {
            let start = place(file, sheet.card_spot(reason.pair.0.index()));
            told += &format!("{start}: {}\n", cannot(&sheet.text, reason));
        }
    }
    told
}

/// A typing by names: a line for each card that has shapes in it.
fn typing(sheet: &Sheet, grid: &[u8]) -> String {
    let text = &sheet.text;
    let line = |(card, shapes): (Card, Vec<Shape>)| {
        let shapes: Vec<&str> = shapes
            .iter()
            .map(|shape| text.shape_name(shape.index()))
            .collect();
        format!("  {}: {}\n", text.cards[card.index()].0.text, shapes.join(", "))
    };
    sheet.cards_with_shapes(grid).into_iter().map(line).collect()
}

/// What there is, and how many of the cards that aren't blank have no shape.
fn head(sheet: &Sheet, file: &str) -> String {
    let bare = sheet.typings.largest.0.bare;
    let linked = sheet.blank.iter().filter(|blank| !**blank).count();
    format!(
        "{file}: {}, {}, {}; of the cards with links, {bare} of {linked} {} no shape\n",
        counted(sheet.text.cards.len(), "card"),
        counted(sheet.text.links.len(), "link"),
        counted(sheet.booked.len(), "booking"),
        if bare == 1 { "has" } else { "have" }
    )
}

/// A count of things.
pub fn counted(count: usize, thing: &str) -> String {
    let end = if count == 1 { "" } else { "s" };
    format!("{count} {thing}{end}")
}

/// The cards with links and no shape, each with its reasons; the nearer to the card that is to blame, the earlier.
pub fn bare(sheet: &Sheet, roots: &Roots) -> Vec<(usize, Vec<Reason>)> {
    let cards = (0..sheet.text.cards.len()).filter(|card| sheet.bare(*card));
    let mut bare: Vec<_> = cards.map(|card| (card, reasons(sheet, roots, card))).collect();
    bare.sort_by_key(|(_, reasons)| reasons.first().map_or(0, |nearest| nearest.steps.len()));
    bare
}

/// A pair that bookings of these desks may ask for, and why it isn't met: 50, or why it can't be 50.
pub fn not_met(sheet: &Sheet, roots: &Roots, file: &str, pair: Pair, desks: &[Desk]) -> String {
    let (text, (card, shape)) = (&sheet.text, pair);
    let start = place(file, sheet.card_spot(card.index()));
    let Some(reason) = reason(sheet, roots, pair) else {
        let who = text.card_title(card.index());
        return format!("{start}: {who} can be {}\n", text.shape_name(shape.index()));
    };
    let asked: Vec<String> = desks
        .iter()
        .filter_map(|desk| asked_by(sheet, *desk, pair))
        .collect();
    let cannot = cannot(text, &reason);
    match &asked[..] {
        [] => format!("{start}: {cannot}\n  no booking asks for this\n"),
        asked => format!("{start}: {cannot}\n{}", asked.concat()),
    }
}

/// How a desk's bookings ask for a pair, and whether it is the pair of that desk's 50; none if they don't.
fn asked_by(sheet: &Sheet, desk: Desk, pair: Pair) -> Option<String> {
    let (text, (card, shape)) = (&sheet.text, pair);
    let steps = path(&sheet.setting, &sheet.booked_by(desk), pair)?;
    let mut told = String::new();
    if sheet.not_met(desk) == Some(pair) {
        told += &format!(
            "  refused 50 {} {} for {}: its bookings ask for {} to have shape {}\n",
            card.0,
            shape.0,
            desk.name(),
            text.cards[card.index()].0.text,
            text.shape_name(shape.index())
        );
    }
    told += &format!("  {}\n", booked_by(text, desk, &steps, pair));
    Some(told)
}

/// A card with no shape, and why it hasn't any of them, the nearest first. Shapes with the same reason share a line;
/// so do the closed ones that don't name all of its kinds, except the nearest.
fn no_shape(sheet: &Sheet, file: &str, card: usize, reasons: &[Reason]) -> String {
    let text = &sheet.text;
    let start = place(file, sheet.card_spot(card));
    let mut lines: Vec<(String, String)> = Vec::new();
    let mut strangers = Vec::new();
    for (order, reason) in reasons.iter().enumerate() {
        let shape = reason.pair.1;
        let name = text.shape_name(shape.index());
        if order > 0 && reason.strange {
            strangers.push((shape, name));
            continue;
        }
        let why = because(text, reason);
        match lines.iter_mut().find(|(_, told)| *told == why) {
            Some((shapes, _)) => *shapes += &format!(", {name}"),
            None => lines.push((name.to_string(), why)),
        }
    }
    if !strangers.is_empty() {
        strangers.sort();
        let names: Vec<&str> = strangers.iter().map(|(_, name)| *name).collect();
        let why = "it has links of kinds that aren't wanted there";
        lines.push((names.join(", "), why.to_string()));
    }
    let mut told = format!("{start}: {} has no shape\n", text.card_title(card));
    for (shapes, why) in lines {
        told += &format!("  not {shapes}: {why}\n");
    }
    told
}
