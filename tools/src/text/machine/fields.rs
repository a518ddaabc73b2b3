//! Fields that several outcomes have: places, refusals, pairs, labels and typings.

use super::Fields;
use crate::desk::Desk;
use crate::labels::{Label, Way};
use crate::numbers::Shape;
use crate::text::check::Sheet;
use crate::text::json::Json;
use crate::text::misfit::Lack;
use crate::text::told::Told;
use crate::text::Spot;
use crate::typing::Pair;

/// A line and a column; null in a sheet of words.
pub fn place(spot: Option<Spot>) -> Fields {
    vec![
        ("line", Json::maybe(spot, |spot| Json::count(spot.line))),
        ("column", Json::maybe(spot, |spot| Json::count(spot.column))),
    ]
}

/// What is wrong with a text, or with a whole file.
pub fn fault(spot: Option<Spot>, message: &str) -> Json {
    let mut fields = place(spot);
    fields.push(("message", Json::text(message)));
    Json::Fields(fields)
}

/// A refusal with a place.
pub fn refusal(told: &Told) -> Json {
    let word = told.word.as_ref();
    let value = word.and_then(|word| word.value);
    let mut fields = vec![
        ("number", Json::count(told.refusal.number.into())),
        ("place", Json::count(told.refusal.place)),
        ("message", Json::text(told.refusal.meaning())),
        ("section", Json::maybe(word, |word| Json::text(word.file))),
        ("word", Json::maybe(value, |word| Json::count(word.into()))),
        ("role", Json::maybe(word, |word| Json::text(&word.role))),
        ("note", Json::maybe(told.note.as_deref(), Json::text)),
    ];
    fields.extend(place(told.spot));
    Json::Fields(fields)
}

/// A desk: its number and its name.
pub fn desk_fields(desk: Desk) -> Fields {
    vec![
        ("desk", Json::count(desk.index())),
        ("desk_name", Json::text(desk.name())),
    ]
}

/// A pair: numbers and names of its card and shape.
pub fn pair_fields(sheet: &Sheet, (card, shape): Pair) -> Fields {
    vec![
        ("card", Json::count(card.index())),
        ("card_name", Json::text(&sheet.text.cards[card.index()].0.text)),
        ("shape", Json::count(shape.index())),
        ("shape_name", Json::text(sheet.text.shape_name(shape.index()))),
    ]
}

/// A label: the name of its kind, and the direction of its links seen from the card.
pub fn label_fields(sheet: &Sheet, label: Label) -> Fields {
    let direction = match label.way {
        Way::Outgoing => "outgoing",
        Way::Incoming => "incoming",
    };
    vec![
        ("kind", Json::text(&sheet.text.kinds[label.kind.index()].text)),
        ("direction", Json::text(direction)),
    ]
}

/// A label with which there are too few links or too many.
pub fn lack(sheet: &Sheet, lack: &Lack) -> Json {
    let mut fields = label_fields(sheet, lack.label);
    fields.extend([
        ("low", Json::Number(lack.low)),
        ("high", Json::maybe(lack.high, Json::Number)),
        ("there", Json::count(lack.there.into())),
    ]);
    Json::Fields(fields)
}

/// A typing by names: for each card that has shapes in it, these shapes.
pub fn typing(sheet: &Sheet, grid: &[u8]) -> Json {
    let shapes =
        |shapes: Vec<Shape>| Json::list(shapes, |shape| Json::text(sheet.text.shape_name(shape.index())));
    let cards = sheet.cards_with_shapes(grid).into_iter();
    Json::Named(
        cards
            .map(|(card, has)| (sheet.text.cards[card.index()].0.text.clone(), shapes(has)))
            .collect(),
    )
}
