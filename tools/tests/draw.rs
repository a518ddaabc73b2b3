//! Drawings: no arrow runs through a card, no text stands over a text, all cards and links are there, and what has
//! to be marked is. This holds for sheets of all sizes.

mod sheets;

use prep_tools::draw::choice::Choice;
use prep_tools::draw::layout::{Layout, Rect, Route};
use prep_tools::draw::measure::{Chip, Mark};
use prep_tools::draw::page::{HEIGHT, WIDTH};
use prep_tools::draw::picture::BLAME;
use prep_tools::draw::svg::{head, round_path};
use prep_tools::draw::verify::{arrows_through_cards, texts_over_texts};
use prep_tools::draw::{draw, Drawing};
use prep_tools::generate::{self, SMALL, TINY};
use prep_tools::random::Random;
use prep_tools::text::check::{run, Sheet};
use prep_tools::text::write;
use sheets::Size;

const PROGRAMME: &str = include_str!("../../examples/prep/programme.txt");
const DRAFT: &str = include_str!("../../examples/prep/draft.txt");

fn sheet(source: &str) -> Sheet {
    run("x.txt", source).expect("the text is a sheet")
}

/// The one page of a drawing.
fn page(drawing: &Drawing) -> &str {
    assert_eq!(drawing.pages.len(), 1);
    &drawing.pages[0].svg
}

/// Its picture, with the scale of it.
fn picture(drawing: &Drawing) -> &(Layout, f64) {
    assert_eq!(drawing.pages.len(), 1);
    drawing.pages[0].picture.as_ref().expect("the page has a picture")
}

fn apart(one: &Rect, two: &Rect) -> bool {
    one.x + one.width <= two.x
        || two.x + two.width <= one.x
        || one.y + one.height <= two.y
        || two.y + two.height <= one.y
}

/// What holds of every picture.
fn picture_is_sound(layout: &Layout) {
    assert_eq!(arrows_through_cards(layout), []);
    let places: Vec<Rect> = layout.blocks.iter().map(|block| block.body).collect();
    for (number, place) in places.iter().enumerate() {
        assert!(places[number + 1..].iter().all(|other| apart(place, other)));
        assert!(place.x >= -0.01 && place.x + place.width <= layout.width + 0.01);
        assert!(place.y >= -0.01 && place.y + place.height <= layout.height + 0.01);
    }
    for route in &layout.routes {
        let (from, to) = (&places[route.arrow.from], &places[route.arrow.to]);
        let touches = |point: &(f64, f64), place: &Rect| {
            let near = |x: f64, start: f64, length: f64| x > start - 0.01 && x < start + length + 0.01;
            near(point.0, place.x, place.width) && near(point.1, place.y, place.height)
        };
        let (first, last) = (route.points.first(), route.points.last());
        assert!(first.is_some_and(|point| touches(point, from)), "{route:?}");
        assert!(last.is_some_and(|point| touches(point, to)), "{route:?}");
    }
}

/// What holds of every drawing of a whole sheet.
fn is_sound(name: &str, sheet: &Sheet) -> Drawing {
    let drawing = draw(sheet, Choice::All);
    let tally = drawing.tally;
    let links = sheet.setting.script.links.len();
    assert_eq!(tally.arrows + tally.listed + tally.left_out, links, "{name}");
    let mut cards = Vec::new();
    for (number, page) in (1..).zip(&drawing.pages) {
        for words in &page.texts {
            let Rect { x, y, width, height } = words.place;
            let inside = x >= 0.0 && y >= 0.0 && x + width <= WIDTH && y + height <= HEIGHT;
            assert!(inside, "{name}, page {number}: {words:?} isn't on the page");
        }
        let over = texts_over_texts(&page.texts);
        assert!(over.is_empty(), "{name}, page {number}: {:?}", over[0]);
        if let Some((layout, scale)) = &page.picture {
            assert!(*scale > 0.5, "{name}, page {number}: {scale}");
            picture_is_sound(layout);
            cards.extend(layout.blocks.iter().map(|block| block.card));
        }
    }
    cards.sort_unstable();
    assert!(cards.into_iter().eq(0..sheet.text.cards.len()), "{name}");
    drawing
}

#[test]
fn the_example_is_sound_and_legible() {
    for source in [PROGRAMME, DRAFT] {
        let sheet = sheet(source);
        assert_eq!(sheet.text.cards.len(), 41);
        let drawing = is_sound("the example", &sheet);
        assert_eq!(drawing.tally.arrows, sheet.text.links.len());
        // A title has letters of 3.6 mm times the scale. The draft's heading takes a line more.
        let (_, scale) = picture(&drawing);
        assert!(*scale > if sheet.is_met() { 0.7 } else { 0.68 }, "{scale}");
    }
}

#[test]
fn an_arrow_through_a_card_is_found() {
    let drawing = draw(&sheet(PROGRAMME), Choice::All);
    let (mut layout, _) = picture(&drawing).clone();
    let route = layout.routes.iter().find(|route| route.points.len() > 2);
    let corner = route.expect("some arrow has a corner").points[1];
    let body = &mut layout.blocks[40].body;
    (body.x, body.y) = (corner.0 - 2.0, corner.1 - 2.0);
    assert!(arrows_through_cards(&layout).iter().any(|(_, card)| *card == 40));
}

#[test]
fn a_text_over_a_text_is_found() {
    let mut texts = draw(&sheet(PROGRAMME), Choice::All).pages[0].texts.clone();
    let place = texts[20].place;
    texts[40].place.x = place.x + place.width / 2.0;
    texts[40].place.y = place.y;
    assert!(!texts_over_texts(&texts).is_empty());
}

#[test]
fn rundowns_of_all_sizes_are_sound() {
    for (cards, most) in [(5, 1), (41, 1), (100, 4), (160, 5), (400, 10), (1024, 25)] {
        let drawing = is_sound(&format!("a rundown of {cards}"), &sheet(&sheets::rundown(cards)));
        assert_eq!(drawing.tally.left_out, 0);
        let pages = drawing.pages.len();
        assert!(pages <= most, "{cards} cards take {pages} pages");
    }
}

#[test]
fn random_sheets_of_all_sizes_are_sound() {
    let mut random = Random::new(7);
    for (cards, links, kinds, shapes) in [
        (1, 3, 3, 2),
        (5, 8, 3, 4),
        (12, 8192, 64, 32),
        (30, 40, 12, 32),
        (41, 80, 8, 6),
        (60, 90, 64, 6),
        (100, 150, 20, 14),
        (160, 480, 8, 16),
        (400, 900, 64, 32),
        (1024, 8192, 64, 32),
    ] {
        let size = Size {
            cards,
            links,
            kinds,
            shapes,
        };
        let sheet = sheet(&sheets::random(&mut random, size));
        let drawing = is_sound(&format!("{size:?}"), &sheet);
        assert_eq!(drawing.tally.left_out, 0, "{size:?}");
    }
}

#[test]
fn sheets_of_open_shapes_are_sound() {
    let mut random = Random::new(8);
    for (cards, links, kinds, shapes) in [
        (5, 8, 3, 4),
        (41, 80, 8, 6),
        (100, 150, 20, 14),
        (400, 900, 64, 32),
    ] {
        let size = Size {
            cards,
            links,
            kinds,
            shapes,
        };
        let source = sheets::random(&mut random, size).replace("\nshape", "\nopen shape");
        let sheet = sheet(&source);
        assert!(sheet.setting.template.definitions.iter().all(|shape| shape.open));
        is_sound(&format!("open, {size:?}"), &sheet);
    }
}

#[test]
fn rows_stars_loose_and_blank_cards_are_sound() {
    for count in [2, 41, 160, 400, 1024] {
        for (name, source) in [
            ("row", sheets::row(count)),
            ("star", sheets::star(count)),
            ("loose", sheets::loose(count)),
            ("blanks", sheets::blanks(count)),
        ] {
            is_sound(&format!("{name} of {count}"), &sheet(&source));
        }
    }
}

#[test]
fn extremes_are_sound() {
    // One card with all links, to every other card but few in a row.
    let hub = is_sound("hub", &sheet(&sheets::hub(1024, 64)));
    assert!(hub.tally.left_out > 0);
    let notes = hub.pages.iter().flat_map(|page| &page.texts);
    let left_out = format!("Left out: {} links of cards", hub.tally.left_out);
    assert!(notes.into_iter().any(|words| words.text.starts_with(&left_out)));
    // Names and titles without an end, in other scripts, or empty.
    let word = "endless".repeat(60);
    let source = format!(
        "title \"{word} {word}\"\nkinds: {word} b\nshape {word} = all({word}[1;1]@B, b[0;3]@B)\n\
         shape B = nothing\ncard x \"{word}\"\ncard y \"{}\"\ncard z \"\"\n\
         link x {word} y\nlink x b y\nlink x b z\nlink z b x\nbook x B\nbook y {word}\n",
        "節目表".repeat(40)
    );
    is_sound("long names", &sheet(&source));
}

#[test]
fn generated_sheets_are_sound() {
    let mut random = Random::new(41);
    for number in 0..40 {
        let scale = if number % 3 == 0 { SMALL } else { TINY };
        let files = generate::any(&mut random, scale);
        let text = write::text(&files.bytes()).expect("a generated sheet is well-formed");
        is_sound(&format!("generated sheet {number}"), &sheet(&text));
    }
}

#[test]
fn a_row_is_folded() {
    let drawing = draw(&sheet(&sheets::row(60)), Choice::All);
    let (layout, _) = picture(&drawing);
    let ratio = layout.width / layout.height;
    assert!(ratio > 1.0 && ratio < 2.5, "{ratio}");
}

#[test]
fn each_mark_is_drawn() {
    let met = draw(&sheet(PROGRAMME), Choice::All);
    let met = page(&met);
    assert!(met.contains(">no shape<") && met.contains("url(#hatch)"));
    assert!(met.contains(">Radio's smallest: 37 pairs.<"));
    assert!(met.contains(">Television's smallest: 21 pairs.<"));
    assert!(met.contains(">left half radio, right television<"));
    assert!(!met.contains("the unmet pair of 50"));
    let not_met = draw(&sheet(DRAFT), Choice::All);
    let not_met = page(&not_met);
    assert!(not_met.contains(">Radio: “Guest to be found” can't be Guest (50): 1 line wanted, 0 there.<"));
    assert!(not_met.contains(">Television's smallest: 4 pairs.<"));
    assert!(not_met.contains("the unmet pair of 50"));
    for kind in [
        "opens", "host", "next", "guest", "film", "music", "line", "source",
    ] {
        let labels = met.matches(&format!(">{kind}<")).count();
        assert!(labels >= 3, "the label {kind} stands {labels} times");
    }
}

/// A quiz that no guest is found for, a film and a song, with these bookings.
fn booked(bookings: &str) -> String {
    format!(
        "kinds: guest film\nshape Item = all(guest[1;]@Guest, film[0;1]@Film)\nshape Guest = nothing\n\
         shape Film = nothing\ncard quiz\ncard night\ncard ann\ncard f1\nlink quiz film f1\n\
         link night film f1\n{bookings}"
    )
}

/// The edge of a card with an unmet pair, and the halves of a filled chip.
const RED_EDGE: &str = "fill=\"none\" stroke=\"#c01f1f\" stroke-width=\"1\"";
const OTHER_HALF: &str = "fill=\"#737d8a\"";

#[test]
fn the_desks_are_told_apart() {
    // How many cards are red, how many halves of chips are grey: also on the card of the legend, and on its chip.
    for (bookings, cards, grey) in [
        ("", 0, 0),
        ("book f1 Film\n", 0, 1 + 1),
        ("book 1 f1 Film\n", 0, 1 + 1),
        ("book f1 Film\nbook 1 f1 Film\n", 0, 1),
        ("book f1 Film\nbook 1 ann Guest\n", 0, 2 + 1),
        ("book quiz Item\n", 1 + 1, 1 + 1),
        ("book quiz Item\nbook 1 quiz Item\n", 1 + 1, 1),
        ("book quiz Item\nbook 1 night Item\n", 2 + 1, 2 + 1),
        ("book quiz Item\nbook 1 f1 Film\n", 1 + 1, 2 + 1),
    ] {
        let drawing = is_sound("desks", &sheet(&booked(bookings)));
        let text = page(&drawing);
        let found = (text.matches(RED_EDGE).count(), text.matches(OTHER_HALF).count());
        assert_eq!(found, (cards, grey), "{bookings}");
        assert_eq!(
            text.contains(">left half radio, right television<"),
            !bookings.is_empty()
        );
    }
    let drawing = draw(
        &sheet(&booked("book quiz Item\nbook 1 night Item\n")),
        Choice::All,
    );
    for told in [
        ">Radio: “quiz” can't be Item (50): at least 1 guest wanted, 0 there.<",
        ">Television: “night” can't be Item (50): at least 1 guest wanted, 0 there.<",
    ] {
        assert!(page(&drawing).contains(told), "{told}");
    }
}

/// A film that two items show. One is booked for its guest; the other one can't be an Item.
const AGAINST: &str = "\
kinds: guest film
shape Item = all(guest[0;]@Guest, film[0;1]@Film)
shape Guest = ^guest[1;]@Item
shape Film = ^film[1;]@Item
card quiz
card ann
card f1
card f2
card night
link quiz guest ann
link quiz film f1
link night film f1 f2
book ann Guest
";

#[test]
fn the_way_to_the_unmet_pair_is_marked_against_arrows_too() {
    let sheet = sheet(AGAINST);
    let drawing = is_sound("against", &sheet);
    let (layout, _) = picture(&drawing);
    let text = page(&drawing);
    assert!(text.contains("“night” can't be Item (50): at most 1 film wanted, 2 there.<"));
    // The way is ann, quiz, f1, night: against an arrow, along one and against one. The legend shows the sign.
    assert_eq!(text.matches(BLAME).count(), 3 + 1);
    for (from, kind, to) in [(0, 0, 1), (0, 1, 2), (4, 1, 2), (4, 1, 3)] {
        let is_it = |route: &&Route| (route.arrow.from, route.arrow.kind, route.arrow.to) == (from, kind, to);
        let route = layout.routes.iter().find(is_it).expect("the link is drawn");
        let marked = format!("<path d=\"{}\" {BLAME}", round_path(&route.points, 1.8));
        assert_eq!(text.contains(&marked), to != 3, "{from} {to}");
        // The head is at the card where the link points.
        assert!(text.contains(&format!("<path d=\"{}\"", head(&route.points, 2.5))));
    }
}

#[test]
fn what_arrives_stands_in_the_shapes() {
    let met = AGAINST
        .replace("night film f1 f2", "night film f1")
        .replace("card f2\n", "");
    let drawing = draw(&sheet(&met), Choice::All);
    let text = page(&drawing);
    assert!(
        text.contains("= ^guest[1;]@Item<") && text.contains("= ^film[1;]@Item<"),
        "{text}"
    );
    let booked = draw(&sheet(&met), Choice::Booked);
    // The other item is asked for by the film.
    assert!(page(&booked).contains(">night<"));
}

/// An item with an open shape, and a link that it ignores to a card with no shape.
const OPEN: &str = "\
kinds: guest note
open shape Item = guest[1;]@Guest
shape Guest = nothing
card quiz
card ann
card memo
link quiz guest ann
link quiz note memo
link memo note quiz
book quiz Item
";

#[test]
fn an_open_shape_is_marked_and_what_it_ignores_is_drawn() {
    let sheet = sheet(OPEN);
    let drawing = is_sound("open", &sheet);
    let text = page(&drawing);
    assert!(text.contains(">Item…<") && text.contains(">Guest<"), "{text}");
    assert!(!text.contains(">Item<") && !text.contains(">Guest…<"), "{text}");
    assert!(text.contains(">Item… = guest[1;]@Guest<") && text.contains(">Guest = nothing<"));
    assert!(text.contains(">an open shape ignores other links<"));
    let (layout, _) = picture(&drawing);
    let drawn = |from: usize, to: usize| {
        let mut routes = layout.routes.iter();
        routes.any(|route| (route.arrow.from, route.arrow.to) == (from, to))
    };
    assert!(drawn(0, 1) && drawn(0, 2) && drawn(2, 0));
    let closed = draw(&self::sheet(&OPEN.replace("open shape", "shape")), Choice::All);
    assert!(!page(&closed).contains('…') && !page(&closed).contains("an open shape"));
}

#[test]
fn the_chip_of_an_open_shape_ends_so_however_long_its_name_is() {
    let name = "endless".repeat(20);
    let source = OPEN.replace("Item", &name);
    let drawing = is_sound("a long name", &sheet(&source));
    let texts = drawing.pages.iter().flat_map(|page| &page.texts);
    let chips: Vec<&str> = texts
        .map(|words| words.text.as_str())
        .filter(|text| text.starts_with("endless") && text.ends_with('…'))
        .collect();
    assert_eq!(chips.len(), 1, "{chips:?}");
    assert!(chips[0].len() < name.len());
}

#[test]
fn a_choice_of_cards_says_what_is_left_out() {
    let sheet = sheet(PROGRAMME);
    let around = Choice::read(&sheet, &["--around", "quiz"]).expect("there is such a card");
    let drawing = draw(&sheet, around);
    let text = page(&drawing);
    assert!(text.contains("Drawn: 3 of 41 cards, “Quiz” (12) and those at most a link away from it."));
    assert!(text.contains("Left out: 38 other cards and their 4"));
    assert!(text.contains("(not\u{a0}drawn)"));
    let booked = draw(&sheet, Choice::read(&sheet, &["--booked"]).expect("an option"));
    assert!(page(&booked).contains("those that a booking touches."));
    assert!(!page(&booked).contains(">Quiz<"));
    let far = Choice::read(&sheet, &["--around", "12", "--steps", "3"]);
    assert_eq!(far, Ok(Choice::Around(12, 3)));
    assert!(Choice::read(&sheet, &["--around", "nobody"]).is_err());
    assert!(Choice::read(&sheet, &["--wide"]).is_err());
}

#[test]
fn pages_have_files_of_their_own() {
    let drawing = draw(&sheet(&sheets::rundown(400)), Choice::All);
    let count = drawing.pages.len();
    let files = drawing.files("out.svg");
    assert_eq!((files.len(), files[1].0.as_str()), (count, "out-2.svg"));
    assert!(files[1].1.contains(&format!(">page 2 of {count}<")));
    let stacked = &drawing.files("-")[..];
    assert_eq!(stacked.len(), 1);
    assert_eq!(stacked[0].1.matches("<svg ").count(), count + 1);
    let one = draw(&sheet(PROGRAMME), Choice::All).files("out.svg");
    assert_eq!((one.len(), one[0].0.as_str()), (1, "out.svg"));
}

#[test]
fn signs_with_a_meaning_are_written_out() {
    let source = "kinds: a\nshape A = nothing\ncard x \"R & B <live>\"\n";
    let drawing = draw(&sheet(source), Choice::All);
    assert!(page(&drawing).contains(">R &amp; B &lt;live&gt;<"));
    let empty = draw(&sheet("kinds: a\nshape A = nothing\n"), Choice::All);
    assert!(page(&empty).contains("0 cards, 0 links."));
}

#[test]
fn a_long_reason_is_on_the_page_too() {
    let branches: Vec<String> = (0..12)
        .map(|kind| format!("all(k{kind}[3;3]@Guest, l{kind}[2;2]@Guest)"))
        .collect();
    let kinds: String = (0..12).map(|kind| format!(" k{kind} l{kind}")).collect();
    let source = format!(
        "kinds:{kinds}\nshape Item = choice({})\nshape Guest = nothing\ncard quiz \"The {}\"\ncard ann\n\
         link quiz k3 ann\nbook quiz Item\nbook 1 quiz Item\n",
        branches.join(", "),
        "long ".repeat(30)
    );
    let sheet = sheet(&source);
    let drawing = is_sound("a long reason", &sheet);
    let told: Vec<&str> = drawing.pages[0]
        .texts
        .iter()
        .map(|words| words.text.as_str())
        .collect();
    let told = told.join(" ");
    let reason = "can't be Item (50): 3 k3 wanted, 1 there; 2 l3 wanted, 0 there (nearest choice:";
    assert_eq!(told.matches(reason).count(), 2, "{told}");
}

/// Items, guests and lines, of which only items are there.
const ONLY_ITEMS: &str = "\
kinds: guest line next
shape Item = all(guest[0;]@Guest, next[1;1]@Item)
shape Guest = line[1;1]@Line
shape Line = ^line[1;]@Guest
shape Spare = line[2;2]@Line
card quiz
card night
link quiz next night
link night next quiz
";

#[test]
fn a_shape_that_is_named_but_on_no_card_is_in_the_legend() {
    let drawing = is_sound("only items", &sheet(ONLY_ITEMS));
    let text = page(&drawing);
    for line in [
        "Item  = all(",
        "Guest = line[1;1]@Line<",
        "Line  = ^line[1;]@Guest<",
    ] {
        assert_eq!(text.matches(&format!(">{line}")).count(), 1, "{line}");
    }
    // Nobody has this one, and nobody names it.
    assert!(!text.contains("Spare"));
}

#[test]
fn kinds_whose_links_stand_in_lines_are_in_the_legend() {
    let names: Vec<String> = (0..64).map(|kind| format!("k{kind}")).collect();
    let links: String = names.iter().map(|kind| format!("link x {kind} y\n")).collect();
    let source = format!(
        "kinds: {}\nopen shape A = nothing\ncard x\ncard y\n{links}",
        names.join(" ")
    );
    let drawing = is_sound("64 kinds", &sheet(&source));
    assert!(drawing.tally.listed >= 4);
    let text = page(&drawing);
    for kind in &names {
        assert!(text.contains(&format!(">{kind}<")), "{kind}");
    }
}

/// A card with all of nine shapes, of which one is booked and asks for the others.
fn all_shapes(bookings: &str) -> String {
    let range = 0..8;
    let kinds: String = range.clone().map(|kind| format!(" k{kind}")).collect();
    let parts: Vec<String> = range
        .clone()
        .map(|kind| format!("k{kind}[1;1]@S{kind}"))
        .collect();
    let shapes: String = range
        .clone()
        .map(|shape| format!("open shape S{shape} = nothing\n"))
        .collect();
    let links: String = range.map(|kind| format!("link x k{kind} x\n")).collect();
    format!(
        "kinds:{kinds}\nshape Top = all({})\n{shapes}card x\n{links}{bookings}",
        parts.join(", ")
    )
}

#[test]
fn the_chip_of_all_shapes_is_filled_if_the_smallest_has_them_all() {
    let (none, radio, television, both) = ([false, false], [true, false], [false, true], [true, true]);
    let every: String = (0..8).map(|shape| format!("book 1 x S{shape}\n")).collect();
    for (bookings, mark, desks, booked, others) in [
        ("", Mark::Largest, none, none, 0),
        ("book x S0\n", Mark::Largest, none, none, 1),
        ("book x Top\n", Mark::Smallest, radio, none, 1),
        ("book 1 x Top\n", Mark::Smallest, television, none, 1),
        ("book x Top\nbook 1 x Top\n", Mark::Smallest, both, none, 1),
        ("book x Top\nbook 1 x S0\n", Mark::Smallest, radio, none, 2),
        (
            &format!("book 1 x Top\n{every}"),
            Mark::Smallest,
            television,
            television,
            0,
        ),
    ] {
        let drawing = is_sound("all shapes", &sheet(&all_shapes(bookings)));
        let (layout, _) = picture(&drawing);
        let chips: Vec<&Chip> = layout.blocks[0].chips.iter().map(|(chip, _)| chip).collect();
        let all = chips.last().expect("the card has chips");
        assert_eq!(all.text, "all 9 shapes", "{bookings}");
        let found = (all.mark, all.desks, all.booked, chips.len() - 1);
        assert_eq!(found, (mark, desks, booked, others), "{bookings}");
    }
}
