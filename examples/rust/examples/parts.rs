//! Prints the sheet that FORMAT.md works through, built from parts and links, as `sheet` does from words.

use prep::{
    Booking, Card, Desk, Kind, Part, Refusal, Script, ScriptBuilder, Shape, Template, TemplateBuilder, Typing,
};

/// What an application keeps.
struct Sheet {
    script: Script,
    bookings: Vec<Booking>,
}

/// Two kinds of links, and two shapes: no link starts at cards of the second.
fn template() -> Result<Template, Refusal> {
    let mut builder = TemplateBuilder::new();
    let (a, b) = (builder.kind(), builder.kind());
    let (linked, plain) = (builder.shape(), builder.shape());
    builder.define(linked, Part::all([Part::link(a, plain, 1), Part::link(b, linked, 0..=1)]));
    builder.read()
}

/// Three cards; the order in which links are added does not matter.
fn script(template: &Template) -> Result<Script, Refusal> {
    let (a, b) = (Kind(0), Kind(1));
    let mut builder = ScriptBuilder::new();
    let (first, second, third) = (builder.card(), builder.card(), builder.card());
    builder.link(second, a, first);
    builder.link(first, b, second);
    builder.link(first, a, third);
    builder.read(template)
}

/// A line for each card: its shapes, ascending.
fn print_cards(typing: &Typing) {
    for card in (0..typing.cards()).map(Card) {
        let shapes: String = typing.shapes_of(card).map(|shape| format!(" {shape}")).collect();
        println!("card {card}:{shapes}");
    }
}

/// The largest typing, and each desk's smallest.
fn print(sheet: &Sheet) {
    let largest = sheet.script.largest();
    println!("largest {} {} {}", largest.rounds, largest.struck, largest.bare);
    print_cards(&largest.typing);
    Desk::BOTH.into_iter().for_each(|desk| print_smallest(sheet, desk));
}

fn print_smallest(sheet: &Sheet, desk: Desk) {
    match sheet.script.smallest(&sheet.bookings, desk) {
        Ok(smallest) => {
            println!("smallest {}", smallest.pairs);
            print_cards(&smallest.typing);
        }
        Err(Refusal { place: prep::Place::Pair { card, shape }, .. }) => {
            println!("smallest no {card} {shape}")
        }
        Err(refusal) => println!("{refusal}"),
    }
}

fn main() -> Result<(), Refusal> {
    let script = script(&template()?)?;
    print(&Sheet { script: script.clone(), bookings: vec![(Desk::Radio, Card(2), Shape(1))] });
    print(&Sheet { script, bookings: vec![(Desk::Radio, Card(0), Shape(0))] });
    Ok(())
}
