//! Reasons as sentences, in the names and titles of the text and without the words of the format. Shapes have no
//! article, because which one it is can't be told from a name.

use super::misfit::{Lack, Misfit, Taken};
use super::reasons::{Reason, Step};
use super::write::part_in;
use super::{quotations, Text};
use crate::desk::Desk;
use crate::labels::{Label, Way};
use crate::numbers::Card;
use crate::typing::met::Need;
use crate::typing::Pair;

/// The most steps of a path, or links of a card, that are told one by one.
const MOST_STEPS: usize = 4;

/// A card can't have a shape, and why: the card to blame comes first.
pub fn cannot(text: &Text, reason: &Reason) -> String {
    let (card, shape) = reason.pair;
    let who = text.card_title(card.index());
    format!(
        "{who} can't be {}: {}",
        text.shape_name(shape.index()),
        because(text, reason)
    )
}

/// Why a card can't have a shape.
pub fn because(text: &Text, reason: &Reason) -> String {
    let wrong = wrong(text, &reason.misfit);
    let (card, shape) = reason.root();
    let what = text.shape_name(shape.index());
    match &reason.steps[..] {
        [] => wrong,
        [need] => format!("{} can't be {what}: {wrong}", far_card(text, need)),
        steps => format!(
            "{} can't be {what}: {wrong}; it leads there by {}",
            called(text, card),
            path(text, steps)
        ),
    }
}

/// The name of a label's kind.
fn kind(text: &Text, label: Label) -> &str {
    &text.kinds[label.kind.index()].text
}

/// The card at the far end of a card's link, whichever way that runs.
fn far_card(text: &Text, (label, (card, _)): &Need) -> String {
    let (kind, who) = (kind(text, *label), called(text, *card));
    match label.way {
        Way::Outgoing => format!("its {kind} {who}"),
        Way::Incoming => format!("{who}, which points at it by {kind},"),
    }
}

/// The steps to the card that is to blame; those in the middle of a long path are only counted.
fn path(text: &Text, steps: &[Need]) -> String {
    let step = |(label, (card, _)): &Need| {
        let (kind, who) = (kind(text, *label), called(text, *card));
        match label.way {
            Way::Outgoing => format!("{kind} {who}"),
            Way::Incoming => format!("{kind} from {who}"),
        }
    };
    match steps {
        [first, between @ .., last] if steps.len() > MOST_STEPS => {
            format!("{}, {} more links, {}", step(first), between.len(), step(last))
        }
        _ => steps.iter().map(step).collect::<Vec<_>>().join(", "),
    }
}

/// What the cards at the far ends of a card's links are or must be; those beyond the first few are only counted.
pub fn far_cards(text: &Text, needs: &[Need], verb: &str) -> String {
    let one = |need: &Need| {
        let (_, (_, shape)) = need;
        format!(
            "{} {verb} {}",
            far_card(text, need),
            text.shape_name(shape.index())
        )
    };
    let mut told: Vec<String> = needs.iter().take(MOST_STEPS).map(one).collect();
    if needs.len() > MOST_STEPS {
        told.push(format!("so with {} more of its links", needs.len() - MOST_STEPS));
    }
    told.join("; ")
}

/// What is wrong with a card's links: how many are wanted, how many are there.
pub fn wrong(text: &Text, misfit: &Misfit) -> String {
    let lacks: Vec<String> = misfit.lacks.iter().map(|one| lack(text, one)).collect();
    let taken: Vec<String> = misfit.taken.iter().map(|one| taken(text, one)).collect();
    if taken.is_empty() {
        return lacks.join("; ");
    }
    format!("{} ({})", lacks.join("; "), taken.join("; "))
}

/// How many links with a label are wanted, and how many are there.
pub fn lack(text: &Text, lack: &Lack) -> String {
    let wanted = match (lack.low, lack.high) {
        (0, Some(0)) => "no".to_string(),
        (low, Some(high)) if low == high => low.to_string(),
        (low, None) => format!("at least {low}"),
        (0, Some(high)) => format!("at most {high}"),
        (low, Some(high)) => format!("{low} to {high}"),
    };
    let kind = kind(text, lack.label);
    let what = match (lack.label.way, lack.high.unwrap_or(lack.low)) {
        (Way::Outgoing, _) => kind.to_string(),
        (Way::Incoming, 1) => format!("arriving {kind} link"),
        (Way::Incoming, _) => format!("arriving {kind} links"),
    };
    format!("{wanted} {what} wanted, {} there", lack.there)
}

/// What the counts that came nearest take of the shape.
fn taken(text: &Text, taken: &Taken) -> String {
    match taken {
        Taken::Branch(part, as_near) => {
            let mut told = format!("nearest choice: {}", part_in(text, part));
            if !as_near.is_empty() {
                let others: Vec<String> = as_near.iter().map(|part| part_in(text, part)).collect();
                told += &format!("; as near: {}", others.join(", "));
            }
            told
        }
        Taken::Times(part, 0) => format!("without {}", part_in(text, part)),
        Taken::Times(part, 1) => format!("{} once", part_in(text, part)),
        Taken::Times(part, times) => format!("{} {times} times", part_in(text, part)),
    }
}

/// The path from a desk's booking to a pair; arrows point where the links do.
pub fn booked_by(text: &Text, desk: Desk, steps: &[Step], goal: Pair) -> String {
    if steps.is_empty() {
        return format!("this is booked by {}", desk.name());
    }
    let pair = |(card, shape): Pair| {
        let card = &text.cards[card.index()].0;
        format!("{} {}", card.text, text.shape_name(shape.index()))
    };
    let mut line = format!("booked by {}: ", desk.name());
    for (asking, label) in steps {
        let (asking, kind) = (pair(*asking), kind(text, *label));
        line += &match label.way {
            Way::Outgoing => format!("{asking} -{kind}-> "),
            Way::Incoming => format!("{asking} <-{kind}- "),
        };
    }
    line + &pair(goal)
}

/// A card in the middle of a sentence: its title, or else its name.
pub fn called(text: &Text, card: Card) -> String {
    match &text.cards[card.index()] {
        (_, Some(title)) => quotations::write(title),
        (name, None) => name.text.clone(),
    }
}
