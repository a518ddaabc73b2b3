//! Pairs struck one at a time: whatever the order, the largest typing is left, after as many strikes as in the rounds.

use prep_tools::generate::special::{chain, document, longest};
use prep_tools::generate::turns::{chain_back, longest_back};
use prep_tools::generate::{self, MIDDLE, SMALL, TINY};
use prep_tools::random::Random;
use prep_tools::sheet::Files;
use prep_tools::typing::judge::can_be_tried;
use prep_tools::typing::met::{met, met_by_choices};
use prep_tools::typing::{rounds, Grid, Pair, Setting};

/// Single strikes on a sheet.
struct Strikes<'a> {
    setting: &'a Setting,
    /// What is left: every pair at first.
    left: Grid,
    /// The places struck, in order.
    struck: Vec<usize>,
}

impl<'a> Strikes<'a> {
    fn new(setting: &'a Setting) -> Strikes<'a> {
        Strikes {
            setting,
            left: vec![1; setting.size()],
            struck: Vec::new(),
        }
    }

    /// Whether the pair is left and not met under what is left now, every choice of shapes tried where they are few.
    fn may_strike(&self, pair: Pair) -> bool {
        let (setting, left) = (self.setting, &self.left);
        let is_met = match can_be_tried(setting, left, pair) {
            true => met_by_choices,
            false => met,
        };
        left[setting.place(pair)] == 1 && !is_met(setting, left, pair)
    }

    fn strike(&mut self, pair: Pair) {
        let place = self.setting.place(pair);
        self.left[place] = 0;
        self.struck.push(place);
    }
}

/// Goes along the pairs again and again, each time in the order into which `arrange` puts them, and strikes each that
/// may be struck when its turn comes; until none was.
fn struck_along<'a>(setting: &'a Setting, mut arrange: impl FnMut(&mut [Pair])) -> Strikes<'a> {
    let mut strikes = Strikes::new(setting);
    let mut pairs: Vec<Pair> = setting.pairs().collect();
    loop {
        arrange(&mut pairs);
        let before = strikes.struck.len();
        for pair in &pairs {
            if strikes.may_strike(*pair) {
                strikes.strike(*pair);
            }
        }
        if strikes.struck.len() == before {
            return strikes;
        }
    }
}

/// Strikes one pair, looks at all pairs again, strikes another: any of those that may be struck then.
fn struck_by_chance<'a>(setting: &'a Setting, random: &mut Random) -> Strikes<'a> {
    let mut strikes = Strikes::new(setting);
    loop {
        let next: Vec<Pair> = setting.pairs().filter(|pair| strikes.may_strike(*pair)).collect();
        if next.is_empty() {
            return strikes;
        }
        strikes.strike(random.pick(&next));
    }
}

/// What single strikes came to on some sheets.
#[derive(Default, Debug)]
struct Played {
    /// Sheets on which some pair was struck, and some was left.
    partly: usize,
    /// Sheets on which not all orders were the same.
    differently: usize,
    /// How many pairs each sheet has.
    sizes: Vec<usize>,
    /// How many rounds each sheet takes.
    rounds: Vec<usize>,
}

impl Played {
    /// Strikes in several orders on a sheet; each must end as the rounds do, after as many strikes.
    fn play(&mut self, random: &mut Random, files: &Files) {
        let setting = Setting::read(&files.template, &files.script).expect("the sheet is well-formed");
        let (answer, largest) = rounds::largest(&setting);
        let mut all = vec![
            struck_along(&setting, |pairs| pairs.sort_unstable()),
            struck_along(&setting, |pairs| pairs.sort_unstable_by(|one, two| two.cmp(one))),
            struck_along(&setting, |pairs| random.shuffle(pairs)),
            struck_along(&setting, |pairs| random.shuffle(pairs)),
        ];
        if setting.size() <= 100 {
            all.extend((0..4).map(|_| struck_by_chance(&setting, random)));
        }
        for strikes in &all {
            assert_eq!(strikes.left, largest, "{files:?}");
            assert_eq!(strikes.struck.len(), answer.struck, "{files:?}");
        }
        self.partly += usize::from(answer.struck > 0 && answer.struck < setting.size());
        self.differently += usize::from(all.iter().any(|strikes| strikes.struck != all[0].struck));
        self.sizes.push(setting.size());
        self.rounds.push(answer.rounds);
    }
}

#[test]
fn in_any_order_random_sheets_come_to_the_largest_typing() {
    let (mut random, mut played) = (Random::new(81), Played::default());
    for number in 0..320 {
        let scale = match number % 8 {
            0..=3 => TINY,
            4..=6 => SMALL,
            _ => MIDDLE,
        };
        let files = generate::any(&mut random, scale);
        played.play(&mut random, &files);
    }
    assert!(played.partly > 150 && played.differently > 200, "{played:?}");
    let sizes = &played.sizes;
    assert!(
        sizes.contains(&1) && sizes.iter().any(|size| *size > 1000),
        "{played:?}"
    );
}

/// Chains of so many cards beside each other: each card but the last of a chain leads to the next one, and must.
fn chains(count: u16, cards: u16) -> Files {
    let starts = (0..count * cards).filter(|card| (card + 1) % cards != 0);
    let links: Vec<[u16; 3]> = starts.map(|card| [card, 0, card + 1]).collect();
    Files {
        template: vec![1, 1, 4, 256, 0, 1, 1],
        script: [vec![count * cards, links.len() as u16], links.concat()].concat(),
        bookings: vec![0],
    }
}

#[test]
fn chains_side_by_side_are_struck_in_many_orders() {
    let (mut random, mut played) = (Random::new(82), Played::default());
    for (count, cards) in [(2, 100), (10, 21), (34, 30)] {
        played.play(&mut random, &chains(count, cards));
    }
    assert_eq!(played.rounds, [101, 22, 31]);
    assert_eq!(played.differently, 3);
}

#[test]
fn where_each_round_strikes_one_pair_there_is_one_order() {
    let (mut random, mut played) = (Random::new(83), Played::default());
    let mut sheets = vec![chain(200, false), chain_back(100, false)];
    for (cards, shapes) in [(7, 3), (31, 4), (5, 31)] {
        sheets.extend([longest(cards, shapes), longest_back(cards, shapes)]);
    }
    for files in &sheets {
        played.play(&mut random, files);
    }
    assert_eq!(played.rounds, [201, 101, 22, 22, 125, 125, 156, 156]);
    assert_eq!(played.differently, 0);
}

#[test]
fn the_worked_sheet_is_struck_in_the_order_of_the_page() {
    let files = document(&[0]);
    let setting = Setting::read(&files.template, &files.script).expect("the sheet is well-formed");
    let mut strikes = Strikes::new(&setting);
    for place in [1, 2, 0, 3, 4] {
        let pair = setting.pairs().nth(place).expect("there are six pairs");
        assert!(strikes.may_strike(pair), "{pair:?}");
        strikes.strike(pair);
    }
    assert!(setting.pairs().all(|pair| !strikes.may_strike(pair)));
    assert_eq!(strikes.left, [0, 0, 0, 0, 0, 1]);
}
