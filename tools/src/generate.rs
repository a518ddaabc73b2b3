//! Random inputs for the sheet printer: sheets of all sizes up to the limits, and damaged ones. And sheets with grids
//! that are judged, and with stored lists that are tidied.
//!
//! | here       | what                                                              |
//! |------------|-------------------------------------------------------------------|
//! | `parts`    | random parts and templates, and random bags of a part             |
//! | `scripts`  | scripts derived from the shapes, and loose ones                   |
//! | `matched`  | sheets whose shapes are made to fit their links                   |
//! | `openings` | open shapes of random templates, and links that they ignore       |
//! | `flat`     | sheets about counting the links of a card, by flat shapes mostly  |
//! | `alike`    | sheets with many cards that are alike or nearly so                |
//! | `sparse`   | cards that few links touch or none, with and without a shape      |
//! | `bookings` | bookings of both desks that are met, and others                   |
//! | `repeats`  | booking lists in which a desk books a pair twice, or nearly so    |
//! | `desks`    | whose the bookings are, the same in every run                     |
//! | `stored`   | stored lists from booking lists, and the other way round          |
//! | `pairs`    | two sheets on which one desk books the same                       |
//! | `heavy`    | the sheets that take longest, for timing                          |
//! | `special`  | the worked sheet, long chains, everything at its limit            |
//! | `turns`    | sheets on which strikes and closures run against the links        |
//! | `counted`  | sheets that put a question of *Fit counts* to the printer         |
//! | `layout`   | where the parts, links and groups of a template stand             |
//! | `damage`   | faults aimed at one refusal, or several at once                   |
//! | `knots`    | faults that meet at one place                                     |
//! | `edges`    | each limit from both sides, the same in every run                 |
//! | `blanks`   | blank cards and cards beside them, the same in every run          |
//! | `arriving` | links that arrive, the same in every run                          |
//! | `open`     | open shapes, the same in every run                                |
//! | `runs`     | counting the links of a card, the same in every run               |
//! | `judging`  | sheets with grids for *Judge a grid*, fixed and random ones       |
//! | `tidying`  | stored lists for *Tidy bookings*, fixed and random ones           |

pub mod alike;
pub mod arriving;
pub mod blanks;
pub mod bookings;
pub mod counted;
pub mod damage;
pub mod desks;
pub mod edges;
pub mod flat;
pub mod heavy;
pub mod judging;
pub mod knots;
pub mod layout;
pub mod matched;
pub mod open;
pub mod openings;
pub mod pairs;
pub mod parts;
pub mod repeats;
pub mod runs;
pub mod scripts;
pub mod sparse;
pub mod special;
pub mod stored;
pub mod tidying;
pub mod turns;

use crate::random::Random;
use crate::sheet::Files;
use crate::template::{self, Template};
use crate::typing::bookings::words;
use crate::typing::Setting;

/// One input with a name that says how it was made.
#[derive(Clone, PartialEq, Eq, Debug)]
pub struct Case {
    /// How it was made.
    pub name: String,
    /// The input of the sheet printer.
    pub bytes: Vec<u8>,
}

/// How large the numbers of a random sheet may become.
#[derive(Clone, Copy, PartialEq, Eq, Debug)]
pub struct Scale {
    /// A word for the scale.
    pub name: &'static str,
    /// The most kinds.
    pub kinds: u16,
    /// The most shapes.
    pub shapes: u16,
    /// The most labels that one shape names, apart from those that mirror others.
    pub labels_in_shape: usize,
    /// The most cards.
    pub cards: u16,
    /// The most links.
    pub links: usize,
    /// The most bookings.
    pub bookings: u16,
}

/// A sheet that can be followed by eye.
pub const TINY: Scale = Scale {
    name: "tiny",
    kinds: 3,
    shapes: 3,
    labels_in_shape: 3,
    cards: 5,
    links: 12,
    bookings: 4,
};
/// A sheet of one page.
pub const SMALL: Scale = Scale {
    name: "small",
    kinds: 6,
    shapes: 6,
    labels_in_shape: 4,
    cards: 30,
    links: 120,
    bookings: 12,
};
/// A sheet of some pages.
pub const MIDDLE: Scale = Scale {
    name: "middle",
    kinds: 20,
    shapes: 12,
    labels_in_shape: 10,
    cards: 200,
    links: 1500,
    bookings: 60,
};
/// Up to the limits of the format.
pub const FULL: Scale = Scale {
    name: "full",
    kinds: 64,
    shapes: 32,
    labels_in_shape: 128,
    cards: 1024,
    links: 8192,
    bookings: 1024,
};

/// How many inputs are the same for every seed.
pub fn fixed() -> usize {
    fixed_cases().count()
}

/// The inputs that are the same for every seed.
fn fixed_cases() -> impl Iterator<Item = Case> {
    let lists = [
        special::fixed(),
        edges::edges(),
        blanks::blanks(),
        arriving::arriving(),
        open::open(),
        runs::runs(),
        alike::fixed::fixed(),
        repeats::fixed::fixed(),
        desks::fixed(),
    ];
    lists.into_iter().flatten()
}

/// The inputs of one seed: the fixed ones first, then as many random ones as are asked for.
pub fn cases(seed: u64, count: usize) -> impl Iterator<Item = Case> {
    fixed_cases()
        .chain(in_turn(seed, case, flat::case, alike::case))
        .take(count)
}

/// Random inputs of one seed with alike cards, and no others.
pub fn alike_cases(seed: u64, count: usize) -> impl Iterator<Item = Case> {
    let mut random = Random::new(seed ^ ALIKE);
    (0..count).map(move |_| alike::case(&mut random))
}

/// What a seed and the seed for alike cards differ in.
const ALIKE: u64 = 0x5555_5555_5555_5555;

/// Random inputs of one seed. Of each seven the sixth is about counting and the seventh has alike cards; these come
/// from sources of their own, so that the others don't depend on them.
fn in_turn<T>(
    seed: u64,
    any: fn(&mut Random) -> T,
    flat: fn(&mut Random) -> T,
    alike: fn(&mut Random) -> T,
) -> impl Iterator<Item = T> {
    let (mut random, mut of_flat, mut of_alike) =
        (Random::new(seed), Random::new(!seed), Random::new(seed ^ ALIKE));
    (1_usize..).map(move |number| match number % 7 {
        6 => flat(&mut of_flat),
        0 => alike(&mut of_alike),
        _ => any(&mut random),
    })
}

/// One random input that is neither about counting nor about alike cards.
pub fn case(random: &mut Random) -> Case {
    match random.below(100) {
        0..=20 => sound(random, "derived", derived),
        21..=39 => sound(random, "matched", matched::matched),
        40..=48 => sound(random, "loose", loose),
        49..=54 => special::random(random),
        // There are many ways to repeat a booking, so these come more often than other faults.
        55..=57 => aimed(random, 65),
        58 => aimed(random, 66),
        59..=84 => {
            let number = random.pick(&damage::AIMS);
            aimed(random, number)
        }
        85..=92 => {
            let mut files = whole(random);
            knots::tie(random, &mut files);
            Case {
                name: "knot".to_string(),
                bytes: files.bytes(),
            }
        }
        _ => several_faults(random),
    }
}

/// A sheet without faults, of any scale.
fn sound(random: &mut Random, name: &str, make: fn(&mut Random, Scale) -> Files) -> Case {
    let scale = scale(random);
    Case {
        name: format!("{name}-{}", scale.name),
        bytes: make(random, scale).bytes(),
    }
}

/// A scale; the small ones come more often.
pub fn scale(random: &mut Random) -> Scale {
    match random.below(20) {
        0..=7 => TINY,
        8..=14 => SMALL,
        15..=17 => MIDDLE,
        _ => FULL,
    }
}

/// A sheet whose script is derived from its shapes, so that many pairs survive.
pub fn derived(random: &mut Random, scale: Scale) -> Files {
    sheet_with(random, scale, scripts::derived)
}

/// A sheet whose script knows nothing of the shapes.
pub fn loose(random: &mut Random, scale: Scale) -> Files {
    sheet_with(random, scale, scripts::loose)
}

/// A sheet that is made in one of these ways.
pub fn any(random: &mut Random, scale: Scale) -> Files {
    let ways: [fn(&mut Random, Scale) -> Files; 3] = [derived, matched::matched, loose];
    random.pick(&ways)(random, scale)
}

/// A sheet with a script that is made in this way. Many have cards that few links touch or none.
fn sheet_with(
    random: &mut Random,
    scale: Scale,
    make_script: fn(&mut Random, &Template, Scale) -> Vec<u16>,
) -> Files {
    let mut template = parts::template(random, scale);
    if random.chance(1, 3) {
        sparse::demand(random, &mut template);
    }
    let mut script = make_script(random, &template, scale);
    if random.chance(1, 2) {
        script = sparse::thin(random, &script, template.kinds, scale.links);
    }
    if random.chance(1, 2) {
        script = openings::stray(random, &template, script, scale.links);
    }
    booked(random, &template, script, scale)
}

/// A template and a script that belong together, with bookings.
fn booked(random: &mut Random, template: &Template, script: Vec<u16>, scale: Scale) -> Files {
    let template = template::write(template);
    let bookings = match Setting::read(&template, &script) {
        Ok(setting) => words(&bookings::bookings(random, &setting, scale.bookings)),
        Err(refusal) => panic!("a generated sheet has a fault, {refusal}"),
    };
    Files {
        template,
        script,
        bookings,
    }
}

/// A sheet, small most of the time, for damage.
fn whole(random: &mut Random) -> Files {
    let scale = random.pick(&[TINY, TINY, SMALL, SMALL, SMALL, MIDDLE]);
    any(random, scale)
}

/// A sheet with one fault, aimed at this refusal.
fn aimed(random: &mut Random, number: u16) -> Case {
    let mut files = whole(random);
    let bytes = if number == 60 {
        damage::of_bytes(random, &files)
    } else {
        damage::aimed(random, &mut files, number);
        files.bytes()
    };
    Case {
        name: format!("aimed-{number}"),
        bytes,
    }
}

/// A sheet with several faults.
fn several_faults(random: &mut Random) -> Case {
    let mut files = whole(random);
    let count = random.between(2, 4);
    damage::several(random, &mut files, count);
    let bytes = if random.chance(1, 20) {
        damage::of_bytes(random, &files)
    } else {
        files.bytes()
    };
    Case {
        name: "several-faults".to_string(),
        bytes,
    }
}
