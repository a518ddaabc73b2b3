//! Everything at its limit: accepted, and refused at the very last byte, pair or booking.

use super::samples::SMALL;
use super::JudgeCase;
use crate::desk::Desk;
use crate::generate::heavy::{common_kinds, dense_template, densest_open};
use crate::generate::parts::filler;
use crate::generate::scripts;
use crate::generate::special::{chain, nothings};
use crate::generate::turns::chain_back;
use crate::labels::{Label, Way};
use crate::numbers::{Card, Kind, Shape};
use crate::random::Random;
use crate::script::{MOST_CARDS, MOST_LINKS};
use crate::sheet::Files;
use crate::template::{self, Link, MOST_SHAPES, MOST_WORDS};
use crate::typing::bookings::{self, by, MOST_BOOKINGS};
use crate::typing::Pair;

/// The words of a file, and the bytes of a grid, that are far too long.
const LONG_FILE: usize = 32_767;
const LONG_GRID: usize = 65_535;

/// All cases at the limits.
pub fn limits() -> Vec<JudgeCase> {
    let pairs = usize::from(MOST_CARDS) * usize::from(MOST_SHAPES);
    let full = |name, way, most| JudgeCase {
        name: format!("full-{name}"),
        files: full_sheet(way, most),
        desk: 0,
        grid: vec![1; pairs],
    };
    [
        vec![
            full("accepted", Way::Outgoing, 1),
            full("last-pair", Way::Outgoing, 0),
            full("both-ways-accepted", Way::Incoming, 1),
            full("both-ways-last-pair", Way::Incoming, 0),
            JudgeCase {
                name: "full-open-accepted".to_string(),
                files: densest_open(),
                desk: 0,
                grid: vec![1; pairs],
            },
        ],
        grids(pairs),
        booked(),
        chains(),
        long_files(),
    ]
    .concat()
}

/// 64 kinds, 32 shapes, 4,096 template words, 1,024 cards with 8 links each, and 1,024 bookings. All pairs are met
/// under the grid that has them all. Only the last one isn't, if the last shape takes none of the rare links, of which
/// there is one; it starts at the last card, or arrives there. In the second case half of the labels are incoming.
fn full_sheet(way: Way, most: u16) -> Files {
    let last_card = MOST_CARDS - 1;
    let (ways, rare_start, rare_target): (&[Way], u16, u16) = match way {
        Way::Outgoing => (&[Way::Outgoing], last_card, 0),
        Way::Incoming => (&Way::BOTH, 0, last_card),
    };
    let kind = Kind(common_kinds(ways) - 1);
    let rare = Label { way, kind };
    let bounded = |link: Link| Link {
        high: if link.label == rare { Some(most) } else { link.high },
        ..link
    };
    let mut template = dense_template(ways);
    let last_shape = usize::from(MOST_SHAPES) - 1;
    let last = &mut template.definitions[last_shape];
    last.part = last.part.with_links(&bounded);
    let mut random = Random::new(12);
    let mut links = scripts::Links::new();
    for card in 0..MOST_CARDS {
        let mut kinds: Vec<u16> = (0..kind.0).collect();
        random.shuffle(&mut kinds);
        kinds.truncate(usize::from(MOST_LINKS / MOST_CARDS));
        if card == rare_start {
            kinds.pop();
            links.insert((card, kind.0, rare_target));
        }
        links.extend(kinds.iter().map(|kind| (card, *kind, random.word(0, last_card))));
    }
    let booked: Vec<Pair> = (0..MOST_BOOKINGS)
        .map(|card| (Card(card), Shape(card % MOST_SHAPES)))
        .collect();
    let booked = by(Desk::Radio, &booked);
    Files {
        template: template::write(&template),
        script: scripts::words(MOST_CARDS, &links),
        bookings: bookings::words(&booked),
    }
}

/// The last byte of the largest grid is over 1; that byte is missing; the longest grid of all.
fn grids(pairs: usize) -> Vec<JudgeCase> {
    let wide = nothings(MOST_SHAPES);
    let cards = [MOST_CARDS, 0];
    let over = [vec![1; pairs - 1], vec![2]].concat();
    vec![
        JudgeCase::new("last-byte", &wide, &cards, &[0], &over),
        JudgeCase::new("last-byte-missing", &wide, &cards, &[0], &vec![1; pairs - 1]),
        JudgeCase::new("no-bytes", &wide, &cards, &[0], &[]),
        JudgeCase::new("longest-grid", &SMALL, &[3, 0], &[0], &vec![1; LONG_GRID]),
    ]
}

/// As many cards and bookings as can be, those of the television: all held, all but the first or the last; and one that
/// is repeated.
fn booked() -> Vec<JudgeCase> {
    let cards = [MOST_CARDS, 0];
    let last = usize::from(MOST_CARDS) - 1;
    let each: Vec<Pair> = (0..MOST_CARDS).map(|card| (Card(card), Shape(0))).collect();
    let mut backwards = each.clone();
    backwards.reverse();
    let same = vec![(Card(MOST_CARDS - 1), Shape(0)); usize::from(MOST_BOOKINGS)];
    let one_more = [same.clone(), same[..1].to_vec()].concat();
    let lists = [
        ("each", each),
        ("backwards", backwards),
        ("same", same),
        ("one-more", one_more),
    ];
    let mut cases = Vec::new();
    for (name, list) in lists {
        let words = bookings::words(&by(Desk::Television, &list));
        let whole = vec![1; usize::from(MOST_CARDS)];
        let mut lacking = whole.clone();
        lacking[last] = 0;
        for (end, grid) in [("held", whole), ("last-card", lacking)] {
            let name = format!("booked-{name}-{end}");
            cases.push(JudgeCase::new(name, &SMALL, &cards, &words, &grid).asking_for(1));
        }
    }
    cases
}

/// A ring of all cards, all of which have the shape or all but the last; and a chain, whose last card can't have it.
/// Then the same against the links, with a second shape that each card has; there the chain's first card can't have
/// the first one.
fn chains() -> Vec<JudgeCase> {
    let mut cases = Vec::new();
    let sheets = [("", 1, chain as fn(u16, bool) -> Files), ("back-", 2, chain_back)];
    for (name, shapes, make) in sheets {
        let whole = vec![1; shapes * usize::from(MOST_CARDS)];
        let mut lacking = whole.clone();
        lacking[whole.len() - shapes] = 0;
        for (end, closed, grid) in [
            ("ring-1024", true, &whole),
            ("ring-1024-last-card", true, &lacking),
            ("chain-1024", false, &whole),
        ] {
            cases.push(JudgeCase {
                name: format!("{name}{end}"),
                files: make(MOST_CARDS, closed),
                desk: 0,
                grid: grid.clone(),
            });
        }
    }
    cases
}

/// The longest template and one that is a word longer, and the longest booking list that a case may have.
fn long_files() -> Vec<JudgeCase> {
    let template = |words: usize| {
        let part = filler(words - 3).words();
        [vec![1, 1, part.len() as u16], part].concat()
    };
    let long_list = vec![0; LONG_FILE];
    vec![
        JudgeCase::new("template-4096", &template(MOST_WORDS), &[1, 0], &[0], &[1]),
        JudgeCase::new("template-4097", &template(MOST_WORDS + 1), &[1, 0], &[0], &[1]),
        JudgeCase::new("longest-file", &SMALL, &[1, 0], &long_list, &[1]),
    ]
}
