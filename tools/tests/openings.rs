//! The generator's open shapes: how many there are, what they ignore and what becomes of their pairs, among the fixed
//! inputs and the random ones, in sheets, in grids that are judged and in questions about counts.

use prep_tools::desk::Desk;
use prep_tools::generate::judging::{self, JudgeCase};
use prep_tools::generate::{self, derived, SMALL, TINY};
use prep_tools::labels::{Label, Way};
use prep_tools::numbers::{Card, Shape};
use prep_tools::random::Random;
use prep_tools::samples::questions;
use prep_tools::script::End;
use prep_tools::sheet::{self, Files};
use prep_tools::template::{self, Definition, Template};
use prep_tools::text::reasons::{asked_for, own_misfit};
use prep_tools::typing::bookings::Booking;
use prep_tools::typing::met::chosen_for;
use prep_tools::typing::{bookings, closure, links, Grid, Pair, Setting, Smallest};
use std::collections::BTreeMap;

/// How often each thing is shown.
type Tally = BTreeMap<&'static str, usize>;

/// The names of those that hold.
fn shown<const N: usize>(all: [(&'static str, bool); N]) -> impl Iterator<Item = &'static str> {
    let holding = all.into_iter().filter(|(_, holds)| *holds);
    holding.map(|(what, _)| what)
}

/// Each of so many things must be shown as often as this.
fn often(tally: &Tally, things: usize, least: usize) {
    assert_eq!(tally.len(), things, "{tally:?}");
    assert!(tally.values().all(|count| *count >= least), "{tally:?}");
}

/// What a template shows about open shapes: how many there are, and where.
fn of_template(template: &Template) -> impl Iterator<Item = &'static str> {
    let shapes = &template.definitions;
    let is_open = |shape: &Definition| shape.open;
    let (some, all) = (shapes.iter().any(is_open), shapes.iter().all(is_open));
    let several = shapes.len() > 1;
    let asks = |from: bool, to: bool| {
        let asking = shapes.iter().filter(|shape| shape.open == from);
        let mut asked = asking.flat_map(|shape| shape.part.links());
        asked.any(|link| template.definition(link.shape).open == to)
    };
    shown([
        ("no shape is open", !some),
        ("some are", some && !all),
        ("all are", all && several),
        ("the first is", shapes[0].open && several),
        ("the last is", shapes[shapes.len() - 1].open && several),
        (
            "an open one and a closed one ask for each other",
            asks(true, false) && asks(false, true),
        ),
    ])
}

/// What the open shapes of a template show.
fn of_open(template: &Template) -> impl Iterator<Item = &'static str> {
    let open = || template.definitions.iter().filter(|shape| shape.open);
    let names = |shape: &Definition, way: Way| {
        let links = shape.part.links();
        links.iter().filter(|link| link.label.way == way).count()
    };
    let kinds = usize::from(template.kinds);
    shown([
        ("names nothing", open().any(|shape| shape.part.links().is_empty())),
        (
            "names every kind",
            open().any(|shape| names(shape, Way::Outgoing) == kinds),
        ),
        (
            "names what arrives",
            open().any(|shape| names(shape, Way::Incoming) > 0),
        ),
        (
            "is as deep as can be",
            open().any(|shape| shape.part.depth() == 12),
        ),
    ])
}

#[test]
fn templates_have_open_shapes_of_every_sort() {
    let mut random = Random::new(51);
    let (mut tally, mut open, mut all) = (Tally::new(), 0, 0);
    for _ in 0..1000 {
        let scale = generate::scale(&mut random);
        let words = derived(&mut random, scale).template;
        let template = template::read(&words).expect("a generated template is well-formed");
        open += template.definitions.iter().filter(|shape| shape.open).count();
        all += template.definitions.len();
        for what in of_template(&template).chain(of_open(&template)) {
            *tally.entry(what).or_default() += 1;
        }
    }
    often(&tally, 10, 30);
    assert!(open > all / 5 && open < all / 2, "{open} of {all} are open");
}

/// What the desk books that books more.
fn most_booked(booked: &[Booking]) -> Vec<Pair> {
    let by_desk = Desk::BOTH.map(|desk| bookings::of(desk, booked));
    by_desk.into_iter().max_by_key(Vec::len).unwrap_or_default()
}

/// A sheet that is read, what one desk books, and its largest typing.
struct Read {
    setting: Setting,
    booked: Vec<Pair>,
    largest: Grid,
}

impl Read {
    fn new(files: &Files) -> Option<Read> {
        let setting = Setting::read(&files.template, &files.script).ok()?;
        Some(Read {
            booked: most_booked(&bookings::read(&setting, &files.bookings).ok()?),
            largest: links::largest(&setting).1,
            setting,
        })
    }

    fn is_open(&self, (_, shape): Pair) -> bool {
        self.setting.template.definition(shape).open
    }

    /// The ends of a pair's links at which its shape doesn't look.
    fn ignored(&self, pair: Pair) -> Vec<End> {
        let looked_at = chosen_for(&self.setting, pair);
        let ends = self.setting.script.ends_of(pair.0).iter();
        ends.filter(|end| !looked_at.contains(end)).copied().collect()
    }

    /// Whether a pair ignores a link that starts at its card; only open ones do.
    fn ignores(&self, pair: Pair) -> bool {
        let ignored = self.ignored(pair);
        ignored.iter().any(|end| end.label.way == Way::Outgoing)
    }

    /// Whether a pair ignores a link that leads to a card without a shape in a grid.
    fn ignores_bare(&self, grid: &[u8], pair: Pair) -> bool {
        let shapes = usize::from(self.setting.template.shapes());
        let has_none = |card: Card| {
            let row = card.index() * shapes;
            !grid[row..row + shapes].contains(&1)
        };
        let is_bare = |end: &End| end.label.way == Way::Outgoing && has_none(end.far);
        self.ignored(pair).iter().any(is_bare)
    }

    /// The pairs at which a grid has this byte.
    fn pairs(&self, grid: &[u8], byte: u8) -> Vec<Pair> {
        let has = |pair: &Pair| grid[self.setting.place(*pair)] == byte;
        self.setting.pairs().filter(has).collect()
    }

    /// Whether a closed pair doesn't fit only because of a link that it doesn't name.
    fn is_barred(&self, pair: Pair) -> bool {
        let named = self
            .setting
            .template
            .part(pair.1)
            .named(self.setting.template.kinds);
        let lacks = own_misfit(&self.setting, pair).map_or(Vec::new(), |misfit| misfit.lacks);
        !lacks.is_empty() && lacks.iter().all(|lack| named[lack.label].is_none())
    }
}

/// What the largest typing of a sheet shows about open shapes.
fn of_largest(read: &Read) -> impl Iterator<Item = &'static str> {
    let setting = &read.setting;
    let (kept, struck) = (read.pairs(&read.largest, 1), read.pairs(&read.largest, 0));
    let keeps = |holds: &dyn Fn(Pair) -> bool| kept.iter().any(|pair| holds(*pair));
    let strikes = |holds: &dyn Fn(Pair) -> bool| struck.iter().any(|pair| holds(*pair));
    let arrives = |pair: Pair, is_named: bool| {
        let named = setting.template.part(pair.1).named(setting.template.kinds);
        let is_it = |end: &End| end.label.way == Way::Incoming && named[end.label].is_some() == is_named;
        read.is_open(pair) && setting.script.ends_of(pair.0).iter().any(is_it)
    };
    let fits = |pair: Pair| own_misfit(setting, pair).is_none();
    shown([
        ("kept, ignoring", keeps(&|pair| read.ignores(pair))),
        (
            "kept, ignoring a link to a card with no shape",
            keeps(&|pair| read.ignores_bare(&read.largest, pair)),
        ),
        ("kept, asked by what arrives", keeps(&|pair| arrives(pair, true))),
        ("kept, ignoring what arrives", keeps(&|pair| arrives(pair, false))),
        (
            "struck for its counts, ignoring",
            strikes(&|pair| read.ignores(pair) && !fits(pair)),
        ),
        (
            "struck for a far card, ignoring",
            strikes(&|pair| read.ignores(pair) && fits(pair)),
        ),
        (
            "struck, closed, only for a link not named",
            strikes(&|pair| read.is_barred(pair)),
        ),
    ])
}

/// What the bookings of a sheet show about open shapes.
fn of_bookings(read: &Read) -> impl Iterator<Item = &'static str> {
    let (smallest, grid) = closure::smallest(&read.setting, &read.booked);
    let mut needed = read.pairs(&grid, 1).into_iter();
    let not_met = match smallest {
        Smallest::NotMet(card, shape) => Some((card, shape)),
        Smallest::Pairs(_) => None,
    };
    shown([
        (
            "needed, ignoring a link to a card that isn't",
            needed.any(|pair| read.ignores_bare(&grid, pair)),
        ),
        (
            "not met, ignoring",
            not_met.is_some_and(|pair| read.ignores(pair)),
        ),
    ])
}

#[test]
fn what_open_shapes_ignore_comes_up_in_every_part() {
    let mut random = Random::new(52);
    let mut tally = Tally::new();
    for _ in 0..800 {
        let scale = random.pick(&[TINY, SMALL]);
        let read = Read::new(&generate::any(&mut random, scale)).expect("a generated sheet is well-formed");
        for what in of_largest(&read).chain(of_bookings(&read)) {
            *tally.entry(what).or_default() += 1;
        }
    }
    often(&tally, 9, 15);
}

#[test]
fn the_fixed_inputs_show_every_part_of_open_shapes() {
    let (mut templates, mut sheets) = (Tally::new(), Tally::new());
    for case in generate::cases(1, generate::fixed()).filter(|case| case.bytes.len() < 1000) {
        let files = sheet::split(&case.bytes).ok();
        if let Some(read) = files.and_then(|files| Read::new(&files)) {
            let template = &read.setting.template;
            for what in of_template(template).chain(of_open(template)) {
                *templates.entry(what).or_default() += 1;
            }
            for what in of_largest(&read).chain(of_bookings(&read)) {
                *sheets.entry(what).or_default() += 1;
            }
        }
    }
    often(&templates, 10, 2);
    often(&sheets, 9, 2);
}

/// The number and the place of a refusal; none if nothing is refused.
type Refused = Option<(u16, usize)>;

/// Templates, and what is refused where.
fn readings() -> Vec<(Vec<u16>, Refused)> {
    let deep = |start: &[u16], ones: usize, end: &[u16]| {
        let part = [start, &vec![1; ones], end].concat();
        [vec![1, 1, part.len() as u16], part].concat()
    };
    vec![
        (vec![1, 1, 2, 18, 0], None),
        (vec![1, 1, 1, 18], Some((4, 4))),
        (vec![1, 1, 3, 18, 18, 0], Some((64, 4))),
        (vec![1, 1, 3, 1, 18, 0], Some((64, 4))),
        (vec![1, 1, 5, 17, 2, 0, 18, 0], Some((64, 6))),
        (vec![1, 1, 4, 17, 18, 0, 0], Some((11, 4))),
        (vec![1, 1, 6, 18, 256, 0, 1, 1, 0], Some((12, 8))),
        (deep(&[18], 11, &[0]), None),
        (deep(&[18], 12, &[0]), Some((6, 16))),
        (deep(&[], 12, &[18]), Some((6, 15))),
    ]
}

#[test]
fn the_fixed_inputs_have_every_place_of_18() {
    let of_case = |case: generate::Case| sheet::split(&case.bytes).map(|files| files.template).ok();
    let fixed: Vec<Vec<u16>> = generate::cases(1, generate::fixed())
        .filter_map(of_case)
        .collect();
    for (template, expected) in readings() {
        assert!(fixed.contains(&template), "{template:?}");
        let refusal = template::read(&template).err();
        let found = refusal.map(|refusal| (refusal.number, refusal.place));
        assert_eq!(found, expected, "{template:?}");
    }
    let has_18 = |read: &Template, word: fn(&template::Link) -> u16| {
        let mut links = read.parts().flat_map(|part| part.links());
        links.any(|link| word(&link) == 18)
    };
    let read: Vec<Template> = fixed
        .iter()
        .filter_map(|words| template::read(words).ok())
        .collect();
    let words: [fn(&template::Link) -> u16; 3] = [
        |link| link.shape.0,
        |link| link.low,
        |link| link.high.unwrap_or(0),
    ];
    for word in words {
        assert!(read.iter().any(|template| has_18(template, word)));
    }
}

/// What a judged grid shows about open shapes: an accepted one with a pair that ignores a link, perhaps to a card
/// without a shape, or an open pair that isn't met though it ignores a link, because of its counts or of a far card.
fn of_grid(case: &JudgeCase) -> Vec<&'static str> {
    let Some(read) = Read::new(&case.files).filter(|read| read.setting.size() == case.grid.len()) else {
        return Vec::new();
    };
    let line = case.answer();
    if line == "accepted" {
        let pairs = read.pairs(&case.grid, 1);
        let bare = |pair: &Pair| read.ignores_bare(&case.grid, *pair);
        return shown([
            ("accepted", pairs.iter().any(|pair| read.ignores(*pair))),
            ("accepted, to a card with no shape", pairs.iter().any(bare)),
        ])
        .collect();
    }
    let place = line
        .strip_prefix("refused 62 ")
        .and_then(|pair| pair.split_once(' '));
    let Some((card, shape)) = place else {
        return Vec::new();
    };
    let number = |text: &str| text.parse().expect("a number");
    let pair = (Card(number(card)), Shape(number(shape)));
    let fits = own_misfit(&read.setting, pair).is_none();
    shown([
        ("not met for its counts", read.ignores(pair) && !fits),
        ("not met for a far card", read.ignores(pair) && fits),
    ])
    .collect()
}

#[test]
fn judged_grids_show_open_shapes() {
    let fixed = judging::fixed();
    let random: Vec<JudgeCase> = judging::cases(53, fixed.len() + 1500).skip(fixed.len()).collect();
    for (cases, least) in [(fixed, 5), (random, 10)] {
        let mut tally = Tally::new();
        for what in cases.iter().flat_map(of_grid) {
            *tally.entry(what).or_default() += 1;
        }
        often(&tally, 4, least);
    }
}

#[test]
fn ignored_links_ask_for_nothing() {
    let mut random = Random::new(54);
    for _ in 0..200 {
        let read = Read::new(&generate::any(&mut random, TINY)).expect("a generated sheet is well-formed");
        for pair in read.setting.pairs() {
            let ignored: Vec<Label> = read.ignored(pair).iter().map(|end| end.label).collect();
            let asked = asked_for(&read.setting, pair);
            assert!(asked.iter().all(|(label, _)| !ignored.contains(label)));
            assert!(read.is_open(pair) || !read.ignores(pair));
        }
    }
}

#[test]
fn questions_about_counts_have_open_shapes() {
    let mut random = Random::new(55);
    let random_ones = (0..1000).map(|_| questions::question(&mut random)).collect();
    for (name, questions, least) in [("fixed", questions::fixed(), 20), ("random", random_ones, 100)] {
        let open = questions.iter().filter(|question| {
            let read = template::read(&question.template);
            let shape = usize::from(question.shape);
            read.is_ok_and(|read| read.definitions.get(shape).is_some_and(|shape| shape.open))
        });
        let count = open.count();
        assert!(count > least, "{name}: {count} ask an open shape");
    }
}
