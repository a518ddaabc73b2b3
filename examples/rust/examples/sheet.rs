//! Prints the sheet that FORMAT.md works through, from its words, for bookings of the radio desk that are met and for
//! some that are not. The television desk books nothing.

use prep::{Booking, Card, Desk, Largest, Refusal, Script, Shape, Smallest, Template, Typing};

/// A line for each card: its shapes, ascending.
fn print_cards(typing: &Typing) {
    for card in (0..typing.cards()).map(Card) {
        print!("card {card}:");
        for shape in typing.shapes_of(card) {
            print!(" {shape}");
        }
        println!();
    }
}

fn print_largest(largest: &Largest) {
    println!("largest {} {} {}", largest.rounds, largest.struck, largest.bare);
    print_cards(&largest.typing);
}

/// A desk's smallest typing, or the pair that is not met.
fn print_smallest(smallest: Result<Smallest, Refusal>) -> Result<(), Refusal> {
    match smallest {
        Ok(smallest) => {
            println!("smallest {}", smallest.pairs);
            print_cards(&smallest.typing);
        }
        Err(Refusal { place: prep::Place::Pair { card, shape }, .. }) => {
            println!("smallest no {card} {shape}");
        }
        Err(refusal) => return Err(refusal),
    }
    Ok(())
}

/// The largest typing, which is the same for both desks, and the smallest of each.
fn print_sheet(script: &Script, bookings: &[Booking]) -> Result<(), Refusal> {
    let radio = script.both(bookings, Desk::Radio)?;
    let television = script.smallest(bookings, Desk::Television);
    print_largest(&radio.largest);
    print_smallest(radio.smallest)?;
    print_smallest(television)
}

fn main() -> Result<(), Refusal> {
    let template = Template::read(vec![2, 2, 10, 17, 2, 256, 1, 1, 1, 257, 0, 0, 1, 1, 0])?;
    let script = Script::read(&template, vec![3, 3, 0, 0, 2, 0, 1, 1, 1, 0, 0])?;
    print_sheet(&script, &[(Desk::Radio, Card(2), Shape(1))])?;
    print_sheet(&script, &[(Desk::Radio, Card(0), Shape(0))])
}
