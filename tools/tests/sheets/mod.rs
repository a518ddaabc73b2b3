//! Texts of sheets of any size, for drawings.

use prep_tools::random::Random;
use std::collections::BTreeSet;
use std::fmt::Write;

const RUNDOWN: &str = "kinds: opens next guest film line source\n\
        shape Programme = opens[1;1]@Item\n\
        shape Item = all(guest[0;2]@Guest, film[0;1]@Film, next[0;1]@Item)\n\
        shape Guest = line[1;1]@Line\n\
        shape Film = source[1;1]@Source\n\
        shape Line = nothing\n\
        shape Source = nothing\n\
        card crew \"Our own crew\"\nbook p0 Programme\n";

/// A rundown: programmes with items in a row, and for each item guests, films or music.
pub fn rundown(cards: usize) -> String {
    let mut text = format!("title \"A rundown of {cards} cards\"\n{RUNDOWN}");
    let mut names = vec!["crew".to_string()];
    let mut links = Vec::new();
    let mut item = 0;
    while names.len() < cards {
        if item % 12 == 0 {
            names.push(format!("p{item}"));
            links.push(format!("p{item} opens i{item}"));
        } else {
            links.push(format!("i{} next i{item}", item - 1));
        }
        names.push(format!("i{item}"));
        if item % 3 == 2 {
            names.push(format!("f{item}"));
            links.extend([format!("i{item} film f{item}"), format!("f{item} source crew")]);
        } else {
            names.extend([format!("g{item}"), format!("l{item}")]);
            links.extend([format!("i{item} guest g{item}"), format!("g{item} line l{item}")]);
        }
        item += 1;
    }
    names.truncate(cards);
    for name in &names[1..] {
        let _ = writeln!(text, "card {name} \"The card {name}\"");
    }
    let there = |link: &&String| {
        let ends: Vec<&str> = link.split(' ').collect();
        names.iter().any(|name| name == ends[0]) && names.iter().any(|name| name == ends[2])
    };
    for link in links.iter().filter(there) {
        let _ = writeln!(text, "link {link}");
    }
    text
}

/// How large a random sheet is.
#[derive(Clone, Copy, Debug)]
pub struct Size {
    pub cards: usize,
    pub links: usize,
    pub kinds: usize,
    pub shapes: usize,
}

/// A name with a number; every third one is long.
fn name(letter: char, number: usize) -> String {
    let more = if number % 3 == 2 {
        "-with-a-name-that-goes-on"
    } else {
        ""
    };
    format!("{letter}{number}{more}")
}

/// A sheet with random links.
pub fn random(random: &mut Random, size: Size) -> String {
    let kinds: Vec<String> = (0..size.kinds).map(|kind| name('k', kind)).collect();
    let mut text = "title \"A sheet of cards and links that has a title that goes on and on, ".to_string();
    let _ = writeln!(text, "{size:?}, to the end of it\"\nkinds: {}", kinds.join(" "));
    for shape in 0..size.shapes {
        let _ = writeln!(text, "shape {} = {}", name('S', shape), part(random, size));
    }
    for card in 0..size.cards {
        let more = " and what it says to those who read it".repeat(card % 3);
        let _ = writeln!(text, "card c{card} \"Card {card}{more}\"");
    }
    let mut links = BTreeSet::new();
    while links.len() < size.links {
        links.insert([size.cards, size.kinds, size.cards].map(|bound| random.below(bound)));
    }
    for [from, kind, to] in links {
        let _ = writeln!(text, "link c{from} {} c{to}", name('k', kind));
    }
    let booked = (0..size.cards.min(4)).map(|_| [size.cards, size.shapes].map(|bound| random.below(bound)));
    for [card, shape] in booked.collect::<BTreeSet<_>>() {
        let _ = writeln!(text, "book c{card} {}", name('S', shape));
    }
    text
}

/// A part that names some kinds, some of them as arriving.
fn part(random: &mut Random, size: Size) -> String {
    let first = random.below(size.kinds);
    let mut parts = Vec::new();
    for step in 0..size.kinds.min(1 + random.below(6)) {
        let far = name('S', random.below(size.shapes));
        let sign = if step % 3 == 2 { "^" } else { "" };
        parts.push(format!(
            "{sign}{}[0;]@{far}",
            name('k', (first + step) % size.kinds)
        ));
    }
    match &parts[..] {
        [part] => part.clone(),
        _ => format!("all({})", parts.join(", ")),
    }
}

const TWO_KINDS: &str = "kinds: a b\nshape A = all(a[0;]@A, b[0;]@A)\nshape B = nothing\n";

fn cards(count: usize) -> String {
    (0..count).map(|card| format!("card c{card}\n")).collect()
}

/// Cards in a row, by two kinds in turn.
pub fn row(count: usize) -> String {
    let link = |card: usize| format!("link c{card} {} c{}\n", ["a", "b"][card % 2], card + 1);
    TWO_KINDS.to_string() + &cards(count) + &(0..count - 1).map(link).collect::<String>()
}

/// One card that leads to all others.
pub fn star(count: usize) -> String {
    let link = |card: usize| format!("link c0 a c{card}\n");
    TWO_KINDS.to_string() + &cards(count) + &(1..count).map(link).collect::<String>()
}

/// One card that leads to 128 others by each of so many kinds.
pub fn hub(count: usize, kinds: usize) -> String {
    let names: Vec<String> = (0..kinds).map(|kind| format!("k{kind}")).collect();
    let mut text = format!("kinds: {}\nshape A = nothing\n{}", names.join(" "), cards(count));
    for (number, kind) in names.iter().enumerate() {
        for step in 0..128 {
            let _ = writeln!(text, "link c0 {kind} c{}", (number + step * 7) % count);
        }
    }
    text
}

/// Cards every other of which is blank, the others in a row; none has a shape.
pub fn blanks(count: usize) -> String {
    let link = |card: usize| format!("link c{} a c{}\n", card - 1, card + 1);
    let links: String = (2..count - 1).step_by(2).map(link).collect();
    format!("kinds: a\nshape A = a[1;1]@A\n{}{links}", cards(count))
}

/// Cards without links.
pub fn loose(count: usize) -> String {
    TWO_KINDS.to_string() + &cards(count)
}
