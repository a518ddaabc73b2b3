//! The generator: the same seed gives the same inputs, whole sheets are well-formed, the limits are reached, and
//! every refusal comes up.

use prep_tools::desk::Desk;
use prep_tools::generate::alike::alike;
use prep_tools::generate::flat::flat;
use prep_tools::generate::matched::matched;
use prep_tools::generate::{self, damage, derived, loose, special, FULL, MIDDLE, SMALL, TINY};
use prep_tools::labels::{Label, Way};
use prep_tools::numbers::{Card, Kind};
use prep_tools::random::Random;
use prep_tools::sheet::{self, Files};
use prep_tools::template::{self, label_of, Part, Template};
use prep_tools::text::reasons::path;
use prep_tools::text::roots::Roots;
use prep_tools::typing::bookings::Booking;
use prep_tools::typing::met::chosen_for;
use prep_tools::typing::{bookings, closure, links, Grid, Pair, Setting, Smallest};
use std::collections::{BTreeMap, BTreeSet};

#[test]
fn the_same_seed_gives_the_same_inputs() {
    let fixed = generate::fixed();
    let all = |seed| generate::cases(seed, fixed + 60).collect::<Vec<_>>();
    assert!(all(5) == all(5));
    assert!(all(5)[..fixed] == all(6)[..fixed]);
    assert!(all(5)[fixed..] != all(6)[fixed..]);
}

#[test]
fn random_inputs_about_counting_and_alike_cards_come_by_turns() {
    let fixed = generate::fixed();
    let mut others = Random::new(5);
    let mut alike = generate::alike_cases(5, 20);
    for (number, case) in (1..).zip(generate::cases(5, fixed + 140).skip(fixed)) {
        match number % 7 {
            0 => assert_eq!(Some(case), alike.next()),
            6 => assert!(case.name.starts_with("flat-"), "{}", case.name),
            _ => assert_eq!(case, generate::case(&mut others)),
        }
    }
    assert_eq!(alike.next(), None);
}

#[test]
fn whole_sheets_are_well_formed() {
    let mut random = Random::new(31);
    for scale in [TINY, SMALL, MIDDLE, FULL] {
        for _ in 0..12 {
            for make in [derived, matched, loose, flat, alike] {
                let bytes = make(&mut random, scale).bytes();
                if let Err(refusal) = sheet::typings(&bytes) {
                    panic!("a {} sheet is turned down, {refusal}", scale.name);
                }
            }
        }
    }
}

#[test]
fn the_limits_are_reached() {
    for seed in 0..2 {
        let files = special::limits(&mut Random::new(seed));
        assert_eq!(files.template.len(), 4096);
        assert_eq!(files.template[..2], [64, 32]);
        assert_eq!(files.script[..2], [1024, 8192]);
        assert_eq!(files.bookings[0], 1024);
        assert!(sheet::typings(&files.bytes()).is_ok());
        let template = template::read(&files.template).expect("the template is well-formed");
        let most = template.parts().map(|part| part.links().len()).max();
        assert_eq!(most, Some(128), "some shape names each kind each way");
    }
}

/// The labels that a template names, of each shape.
fn labels(template: &Template) -> impl Iterator<Item = Vec<Label>> + '_ {
    let of_part = |part: &Part| part.links().iter().map(|link| link.label).collect();
    template.parts().map(of_part)
}

#[test]
fn templates_name_links_both_ways() {
    let mut random = Random::new(35);
    let (mut ways, mut together, mut wrapped) = ([0; 3], 0, 0);
    for _ in 0..400 {
        let scale = generate::scale(&mut random);
        let words = derived(&mut random, scale).template;
        let template = template::read(&words).expect("a generated template is well-formed");
        let all: Vec<Label> = labels(&template).flatten().collect();
        match Way::BOTH.map(|way| has(&all, way)) {
            [true, true] => ways[0] += 1,
            [true, false] => ways[1] += 1,
            [false, true] => ways[2] += 1,
            [false, false] => {}
        }
        let both = |labels: Vec<Label>| labels.iter().any(|label| labels.contains(&label.turned()));
        together += usize::from(labels(&template).any(both));
        let is_wrapped = |part: &Part| match part {
            Part::Star(inner) | Part::Plus(inner) => {
                inner.links().iter().any(|link| link.label.way == Way::Incoming)
            }
            _ => false,
        };
        wrapped += usize::from(template.parts().any(is_wrapped));
    }
    let told = format!(
        "{ways:?} name both, outgoing, incoming; {together} a kind both ways; {wrapped} in star or plus"
    );
    assert!(ways[0] > 200 && ways[1] > 50 && ways[2] > 10, "{told}");
    assert!(together > 100 && wrapped > 30, "{told}");
}

/// Whether some of the labels run this way.
fn has(labels: &[Label], way: Way) -> bool {
    labels.iter().any(|label| label.way == way)
}

/// Whether some labels run one way and some the other.
fn has_both(labels: &[Label]) -> bool {
    Way::BOTH.into_iter().all(|way| has(labels, way))
}

/// What the desk books that books more.
fn most_booked(booked: &[Booking]) -> Vec<Pair> {
    let by_desk = Desk::BOTH.map(|desk| bookings::of(desk, booked));
    by_desk.into_iter().max_by_key(Vec::len).unwrap_or_default()
}

/// A sheet that is read, what one desk books, and its largest typing.
struct Read {
    setting: Setting,
    booked: Vec<Pair>,
    largest: Grid,
}

impl Read {
    fn new(files: &Files) -> Read {
        let setting =
            Setting::read(&files.template, &files.script).expect("a generated sheet is well-formed");
        Read {
            booked: most_booked(
                &bookings::read(&setting, &files.bookings).expect("generated bookings are well-formed"),
            ),
            largest: links::largest(&setting).1,
            setting,
        }
    }

    /// The pairs of a grid.
    fn pairs_of<'a>(&'a self, grid: &'a [u8]) -> impl Iterator<Item = Pair> + 'a {
        let has = |pair: &Pair| grid[self.setting.place(*pair)] == 1;
        self.setting.pairs().filter(has)
    }

    /// Whether a shape of a pair is chosen for a link that arrives.
    fn arrives(&self, pair: Pair) -> bool {
        let ends = chosen_for(&self.setting, pair);
        ends.iter().any(|end| end.label.way == Way::Incoming)
    }

    /// Whether a pair names both ends of a link from its card to itself.
    fn names_both_ends(&self, (card, shape): Pair) -> bool {
        let named = self
            .setting
            .template
            .part(shape)
            .named(self.setting.template.kinds);
        let mut ends = self.setting.script.ends_of(card).iter();
        ends.any(|end| end.far == card && named[end.label].is_some() && named[end.label.turned()].is_some())
    }

    /// The labels on the way from each pair that is struck to the one that is to blame.
    fn strikes(&self) -> Vec<Vec<Label>> {
        let roots = Roots::new(&self.setting);
        let steps = self.setting.pairs().filter_map(|pair| roots.steps(pair));
        steps
            .map(|steps| steps.iter().map(|(label, _)| *label).collect())
            .collect()
    }

    /// The labels on the way from a booking to each pair that is asked for.
    fn asked(&self) -> Vec<Vec<Label>> {
        let closure = closure::closure(&self.setting, &self.booked);
        let paths = self
            .pairs_of(&closure)
            .filter_map(|pair| path(&self.setting, &self.booked, pair));
        paths
            .map(|steps| steps.iter().map(|(_, label)| *label).collect())
            .collect()
    }
}

/// What a sheet shows about links that arrive.
fn shown(files: &Files) -> Vec<&'static str> {
    let read = Read::new(files);
    let (strikes, asked) = (read.strikes(), read.asked());
    let against = |paths: &[Vec<Label>]| paths.iter().any(|labels| has(labels, Way::Incoming));
    let in_turn = |paths: &[Vec<Label>]| paths.iter().any(|labels| has_both(labels));
    let (smallest, _) = closure::smallest(&read.setting, &read.booked);
    let is_met = matches!(smallest, Smallest::Pairs(_));
    let mut kept = read.pairs_of(&read.largest);
    let all = [
        (
            "a pair stays to which a link arrives",
            kept.any(|pair| read.arrives(pair)),
        ),
        (
            "a pair stays with both ends of a link",
            read.pairs_of(&read.largest)
                .any(|pair| read.names_both_ends(pair)),
        ),
        ("strikes run against links", against(&strikes)),
        ("strikes run along and against links", in_turn(&strikes)),
        ("bookings are met against links", is_met && against(&asked)),
        (
            "bookings are met along and against links",
            is_met && in_turn(&asked),
        ),
        ("bookings are not met, against links", !is_met && against(&asked)),
    ];
    let shown = all.into_iter().filter(|(_, is_shown)| *is_shown);
    shown.map(|(what, _)| what).collect()
}

#[test]
fn links_that_arrive_come_up_in_every_part() {
    let mut random = Random::new(36);
    let mut tally: BTreeMap<&str, usize> = BTreeMap::new();
    for _ in 0..600 {
        let scale = random.pick(&[TINY, SMALL]);
        for what in shown(&generate::any(&mut random, scale)) {
            *tally.entry(what).or_default() += 1;
        }
    }
    assert_eq!(tally.len(), 7, "{tally:?}");
    assert!(tally.values().all(|count| *count >= 15), "{tally:?}");
}

#[test]
fn the_fixed_inputs_show_every_part_of_links_that_arrive() {
    let mut tally: BTreeMap<&str, usize> = BTreeMap::new();
    for case in generate::cases(1, generate::fixed()) {
        if sheet::typings(&case.bytes).is_ok() && case.bytes.len() < 1000 {
            let files = sheet::split(&case.bytes).expect("a sheet that is read");
            for what in shown(&files) {
                *tally.entry(what).or_default() += 1;
            }
        }
    }
    assert_eq!(tally.len(), 7, "{tally:?}");
    assert!(tally.values().all(|count| *count >= 2), "{tally:?}");
}

#[test]
fn the_fixed_inputs_have_the_edges_of_labels_both_ways() {
    let (mut labels, mut refused) = (BTreeSet::new(), BTreeSet::new());
    for case in generate::cases(1, generate::fixed()) {
        let Ok(files) = sheet::split(&case.bytes) else {
            continue;
        };
        match template::read(&files.template) {
            Ok(template) => labels.extend(self::labels(&template).flatten()),
            Err(refusal) => {
                // The code of the link at fault stands up to two places before.
                let before = [0, 1, 2].map(|back| files.template.get(refusal.place.wrapping_sub(back)));
                let code = before
                    .into_iter()
                    .flatten()
                    .find(|word| label_of(**word).is_some());
                let way = code.and_then(|code| label_of(*code)).map(|label| label.way);
                refused.insert((refusal.number, way));
            }
        }
    }
    for way in Way::BOTH {
        for kind in [0, 1, 63].map(Kind) {
            assert!(labels.contains(&Label { way, kind }), "{way:?} {kind:?}");
        }
        for number in [7, 8, 9, 10] {
            assert!(refused.contains(&(number, Some(way))), "{number} {way:?}");
        }
    }
    let codes = [255, 256, 319, 320, 383, 384].map(|code| {
        let template = [64, 1, 4, code, 0, 0, 1];
        let script = [1, 0];
        let find = |case: &generate::Case| {
            sheet::split(&case.bytes).is_ok_and(|files| files.template == template && files.script == script)
        };
        let mut cases = generate::cases(1, generate::fixed());
        assert!(cases.any(|case| find(&case)), "{code}");
        template::read(&template).is_ok()
    });
    assert_eq!(codes, [false, true, true, true, true, false]);
}

#[test]
fn deep_and_wide_parts_come_up() {
    let mut random = Random::new(32);
    let (mut deep, mut wide, mut many_words) = (0, 0, 0);
    for _ in 0..80 {
        let words = derived(&mut random, FULL).template;
        let read = template::read(&words).expect("a generated template is well-formed");
        deep += usize::from(read.parts().any(|part| part.depth() == 12));
        wide += usize::from(words.windows(2).any(|two| two == [17, 16]));
        many_words += usize::from(words.len() > 3000);
    }
    assert!(
        deep > 30 && wide > 5 && many_words > 2,
        "{deep} deep, {wide} wide, {many_words} long"
    );
}

#[test]
fn every_refusal_and_every_kind_of_answer_comes_up() {
    let mut refusals: BTreeMap<u16, usize> = BTreeMap::new();
    let (mut met, mut not_met, mut many_rounds) = (0, 0, 0);
    for case in generate::cases(33, 2200) {
        match sheet::typings(&case.bytes) {
            Err(refusal) => *refusals.entry(refusal.number).or_insert(0) += 1,
            Ok(both) => {
                many_rounds += usize::from(both.largest.0.rounds > 3);
                for (smallest, _) in both.smallest {
                    match smallest {
                        Smallest::Pairs(pairs) => met += usize::from(pairs > 0),
                        Smallest::NotMet(..) => {
                            not_met += 1;
                            *refusals.entry(50).or_insert(0) += 1;
                        }
                    }
                }
            }
        }
    }
    for number in damage::AIMS {
        let count = refusals.get(&number).copied().unwrap_or(0);
        assert!(
            count >= 10,
            "refusal {number} comes up only {count} times: {refusals:?}"
        );
    }
    assert!(
        met > 400 && not_met > 200 && many_rounds > 200,
        "{met} met, {not_met} not, {many_rounds} long"
    );
}

/// How often a sheet has a card of some kind without a shape, and with one.
type Tally = [usize; 2];

#[test]
fn cards_that_few_links_touch_come_up_with_and_without_a_shape() {
    let mut tallies: BTreeMap<&str, Tally> = BTreeMap::new();
    let mut random = Random::new(34);
    for _ in 0..1800 {
        let scale = generate::scale(&mut random);
        let files = generate::any(&mut random, scale);
        let setting =
            Setting::read(&files.template, &files.script).expect("a generated sheet is well-formed");
        let (_, grid) = links::largest(&setting);
        let rows = grid.chunks(usize::from(setting.template.shapes()));
        let kinds = setting.cards().map(|card| links_of(&setting, card));
        let found: BTreeSet<(&str, usize)> = kinds
            .zip(rows)
            .filter_map(|(kind, row)| Some((kind?, usize::from(row.contains(&1)))))
            .collect();
        for (kind, has_shape) in found {
            tallies.entry(kind).or_default()[has_shape] += 1;
        }
    }
    assert_eq!(tallies.len(), 7, "{tallies:?}");
    for (kind, tally) in &tallies {
        assert!(tally.iter().all(|count| *count >= 10), "{kind}: {tally:?}");
    }
}

/// Which links a card has, if they are few: none, and then where it stands, or only some of one sort.
fn links_of(setting: &Setting, card: Card) -> Option<&'static str> {
    let links = &setting.script.links;
    let itself = links.iter().any(|link| link.from == card && link.to == card);
    let leaving = links.iter().any(|link| link.from == card && link.to != card);
    let arriving = links.iter().any(|link| link.from != card && link.to == card);
    let (first, last) = (card.0 == 0, card.0 + 1 == setting.script.cards);
    match (itself, leaving, arriving) {
        (true, false, false) => Some("only to itself"),
        (false, true, false) => Some("only leaving"),
        (false, false, true) => Some("only arriving"),
        (false, false, false) => Some(match (first, last) {
            (true, true) => "blank, alone",
            (true, false) => "blank, first",
            (false, true) => "blank, last",
            (false, false) => "blank, between",
        }),
        _ => None,
    }
}
