//! What a sheet comes to: its typings, what its bookings ask for and isn't met, and why.

use super::fields::{desk_fields, label_fields, lack, pair_fields, place, typing};
use super::Fields;
use crate::desk::Desk;
use crate::text::check::Sheet;
use crate::text::json::Json;
use crate::text::reasons::{all_not_met, path, Reason};
use crate::text::report::bare;
use crate::text::roots::Roots;
use crate::text::sentences::{because, wrong};
use crate::typing::Smallest;

/// What is in the sheet, apart from its cards.
pub fn contents(sheet: &Sheet) -> Fields {
    let text = &sheet.text;
    let booked = Json::list(&sheet.booked, |(desk, pair)| {
        let mut fields = desk_fields(*desk);
        fields.extend(pair_fields(sheet, *pair));
        Json::Fields(fields)
    });
    let shapes = Json::list(&text.shapes, |shape| Json::text(&shape.name.text));
    vec![
        ("title", Json::maybe(text.title.as_deref(), Json::text)),
        ("kinds", Json::list(&text.kinds, |name| Json::text(&name.text))),
        ("shapes", shapes),
        ("links", Json::count(text.links.len())),
        ("bookings", booked),
    ]
}

/// The largest typing.
pub fn largest(sheet: &Sheet) -> Json {
    let (largest, grid) = &sheet.typings.largest;
    Json::Fields(vec![
        ("rounds", Json::count(largest.rounds)),
        ("struck", Json::count(largest.struck)),
        ("bare", Json::count(largest.bare)),
        ("typing", typing(sheet, grid)),
    ])
}

/// Each desk's smallest typing, null if what it books can't be met, and what can't.
pub fn desks(sheet: &Sheet, roots: &Roots) -> Json {
    Json::list(Desk::BOTH, |desk| of_desk(sheet, roots, desk))
}

fn of_desk(sheet: &Sheet, roots: &Roots, desk: Desk) -> Json {
    let (answer, grid) = &sheet.typings.smallest[desk.index()];
    let smallest = match answer {
        Smallest::Pairs(pairs) => Json::Fields(vec![
            ("pairs", Json::count(*pairs)),
            ("typing", typing(sheet, grid)),
        ]),
        Smallest::NotMet(..) => Json::Null,
    };
    let not_met = all_not_met(sheet, roots, desk);
    let first = not_met.first();
    let others = Json::list(not_met.iter().skip(1), |reason| {
        Json::Fields(unmet_fields(sheet, reason))
    });
    let mut fields = desk_fields(desk);
    fields.extend([
        ("smallest", smallest),
        ("unmet", Json::maybe(first, |reason| unmet(sheet, desk, reason))),
        ("also_unmet", others),
    ]);
    Json::Fields(fields)
}

/// A desk's pair of 50, and the path to it from a booking of that desk, which is the first pair of the path.
fn unmet(sheet: &Sheet, desk: Desk, reason: &Reason) -> Json {
    let mut fields = unmet_fields(sheet, reason);
    let steps = path(&sheet.setting, &sheet.booked_by(desk), reason.pair).unwrap_or_default();
    let steps = Json::list(steps, |(asking, label)| {
        let mut step = pair_fields(sheet, asking);
        step.extend(label_fields(sheet, label));
        Json::Fields(step)
    });
    fields.push(("way", steps));
    Json::Fields(fields)
}

/// A pair that isn't met, and why.
fn unmet_fields(sheet: &Sheet, reason: &Reason) -> Fields {
    let mut fields = pair_fields(sheet, reason.pair);
    fields.extend(place(sheet.card_spot(reason.pair.0.index())));
    fields.push(("reason", Json::text(because(&sheet.text, reason))));
    fields.push(("lacks", Json::list(&reason.misfit.lacks, |one| lack(sheet, one))));
    fields
}

/// The cards with links and no shape, and for each shape why they haven't that one.
pub fn bare_cards(sheet: &Sheet, roots: &Roots) -> Json {
    Json::list(bare(sheet, roots), |(card, reasons)| {
        let mut fields = vec![
            ("card", Json::count(card)),
            ("card_name", Json::text(&sheet.text.cards[card].0.text)),
        ];
        fields.extend(place(sheet.card_spot(card)));
        let reasons = Json::list(&reasons, |reason| bare_reason(sheet, reason));
        fields.push(("reasons", reasons));
        Json::Fields(fields)
    })
}

fn bare_reason(sheet: &Sheet, reason: &Reason) -> Json {
    let shape = reason.pair.1;
    let mut root = pair_fields(sheet, reason.root());
    root.push(("reason", Json::text(wrong(&sheet.text, &reason.misfit))));
    root.push(("lacks", Json::list(&reason.misfit.lacks, |one| lack(sheet, one))));
    Json::Fields(vec![
        ("shape", Json::count(shape.index())),
        ("shape_name", Json::text(sheet.text.shape_name(shape.index()))),
        ("distance", Json::Number(reason.distance)),
        ("reason", Json::text(because(&sheet.text, reason))),
        ("root", Json::Fields(root)),
    ])
}

/// The cards, in their order.
pub fn cards(sheet: &Sheet) -> Json {
    Json::list(0..sheet.text.cards.len(), |card| {
        let (name, title) = &sheet.text.cards[card];
        let mut fields = vec![
            ("name", Json::text(&name.text)),
            ("title", Json::maybe(title.as_deref(), Json::text)),
        ];
        fields.extend(place(sheet.card_spot(card)));
        Json::Fields(fields)
    })
}
