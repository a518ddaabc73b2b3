//! The generator's sheets about counting the links of a card: which shapes and cards there are, and that for each
//! sort of them the counts of some pairs fit and those of others don't. And the heavy sheets on which no shape is
//! flat.

use prep_tools::fit::intervals::verdict;
use prep_tools::generate::heavy::{densest, nested};
use prep_tools::generate::{flat, runs};
use prep_tools::labels::{Labelled, Way};
use prep_tools::numbers::{Card, Shape};
use prep_tools::random::Random;
use prep_tools::sheet::Files;
use prep_tools::template::{Link, Part, MOST_COUNT};
use prep_tools::typing::counting::Counting;
use prep_tools::typing::{links, Pair, Setting};
use std::collections::{BTreeMap, BTreeSet};

/// For each sort of pairs, how many sheets have one whose counts don't fit, and how many have one whose counts do.
type Tally = BTreeMap<&'static str, [usize; 2]>;

/// The stars, pluses and optionals around a part, and what is inside them.
fn unwrapped(part: &Part) -> (Vec<&'static str>, &Part) {
    let (name, inner) = match part {
        Part::Star(inner) => ("star", inner),
        Part::Plus(inner) => ("plus", inner),
        Part::Optional(inner) => ("optional", inner),
        _ => return (Vec::new(), part),
    };
    let (mut names, inner) = unwrapped(inner);
    names.insert(0, name);
    (names, inner)
}

/// Whether a part is a link, nothing, or an all of such parts.
fn is_all_of_links(part: &Part) -> bool {
    match part {
        Part::Nothing | Part::Link(_) => true,
        Part::All(parts) => parts.iter().all(is_all_of_links),
        _ => false,
    }
}

fn is_flat(part: &Part) -> bool {
    is_all_of_links(unwrapped(part).1)
}

/// Whether a part or one within it is a choice.
fn has_choice(part: &Part) -> bool {
    match part {
        Part::Choice(_) => true,
        Part::All(parts) => parts.iter().any(has_choice),
        Part::Star(part) | Part::Plus(part) | Part::Optional(part) => has_choice(part),
        _ => false,
    }
}

/// Whether a plus in front of a part is over what takes the empty bag.
fn has_plus_over_empty(part: &Part, kinds: u16) -> bool {
    let takes_none = |part: &Part| {
        let interval = verdict(part, &Labelled::new(kinds, 0)).interval;
        interval.is_some_and(|interval| interval.has(1))
    };
    match part {
        Part::Plus(inner) => takes_none(inner) || has_plus_over_empty(inner, kinds),
        Part::Star(inner) | Part::Optional(inner) => has_plus_over_empty(inner, kinds),
        _ => false,
    }
}

/// A sheet that is read, and the outgoing counts of its cards by kind.
struct Read {
    setting: Setting,
    counts: Vec<BTreeMap<u16, usize>>,
}

impl Read {
    fn new(files: &Files) -> Read {
        let setting =
            Setting::read(&files.template, &files.script).expect("a generated sheet is well-formed");
        let mut counts = vec![BTreeMap::new(); usize::from(setting.script.cards)];
        for link in &setting.script.links {
            *counts[link.from.index()].entry(link.kind.0).or_default() += 1;
        }
        Read { setting, counts }
    }

    /// What a shape is.
    fn of_shape(&self, part: &Part) -> Vec<(&'static str, bool)> {
        let (wraps, inner) = unwrapped(part);
        let flat = is_all_of_links(inner);
        let kinds: Vec<u16> = leaving(part).iter().map(|link| link.label.kind.0).collect();
        let descends = kinds.windows(2).all(|two| two[0] > two[1]);
        let ascends = kinds.windows(2).all(|two| two[0] < two[1]);
        let within =
            matches!(inner, Part::All(parts) if parts.iter().any(|part| matches!(part, Part::All(_))));
        let arriving = part.links().len() > kinds.len();
        vec![
            ("flat alone", flat && wraps.is_empty()),
            ("flat, star", flat && wraps == ["star"]),
            ("flat, plus", flat && wraps == ["plus"]),
            ("flat, optional", flat && wraps == ["optional"]),
            ("flat, under two", flat && wraps.len() == 2),
            (
                "flat, plus over what takes the empty bag",
                flat && has_plus_over_empty(part, self.setting.template.kinds),
            ),
            ("flat, alls in an all", flat && within),
            ("flat, descending", flat && descends && !ascends),
            ("flat, in another order", flat && !descends && !ascends),
            ("flat, with links that arrive", flat && arriving),
            ("nearly flat, a choice", !flat && has_choice(inner)),
            ("nearly flat, no choice", !flat && !has_choice(inner)),
        ]
    }

    /// What a flat shape's links are to a card.
    fn of_links(&self, part: &Part, card: Card) -> Vec<(&'static str, bool)> {
        let counts = &self.counts[card.index()];
        let links = leaving(part);
        let count = |link: &Link| counts.get(&link.label.kind.0).copied().unwrap_or(0);
        let any = |holds: &dyn Fn(&Link) -> bool| links.iter().any(holds);
        let is_last = |link: &Link| counts.keys().eq([&link.label.kind.0]);
        let only_here = |link: &Link| {
            let kind = link.label.kind.0;
            let having = self.counts.iter().filter(|counts| counts.contains_key(&kind));
            count(link) > 0 && having.count() == 1 && self.counts.len() > 1
        };
        vec![
            ("no links", counts.is_empty()),
            ("a run of 1", any(&|link| count(link) == 1)),
            ("a run of 2", any(&|link| count(link) == 2)),
            ("a run of over 100", any(&|link| count(link) > 100)),
            ("kind 0", any(&|link| link.label.kind.0 == 0 && count(link) > 0)),
            ("kind 63", any(&|link| link.label.kind.0 == 63 && count(link) > 0)),
            ("[0;0]", any(&|link| link.high == Some(0))),
            ("no limit", any(&|link| link.high.is_none() && count(link) > 0)),
            ("low above", any(&|link| usize::from(link.low) > count(link))),
            ("low of 8,192", any(&|link| link.low == MOST_COUNT)),
            (
                "only the kind of the last part",
                links.len() > 1 && links.last().is_some_and(is_last),
            ),
            ("a kind that only this card has", any(&only_here)),
            ("the script's last links", self.ends_script(card)),
        ]
    }

    /// Whether the last links of the script start at a card.
    fn ends_script(&self, card: Card) -> bool {
        let last = self.setting.script.links.last();
        last.is_some_and(|link| link.from == card)
    }

    /// Where a card has kinds that an open shape doesn't name.
    fn of_unnamed(&self, part: &Part, card: Card) -> Vec<(&'static str, bool)> {
        let named: BTreeSet<u16> = leaving(part).iter().map(|link| link.label.kind.0).collect();
        let others: Vec<u16> = self.counts[card.index()].keys().copied().collect();
        let others = || others.iter().filter(|kind| !named.contains(kind));
        let below = |kind: &u16| named.range(..kind).next().is_some();
        let above = |kind: &u16| named.range(kind..).next().is_some();
        vec![
            ("open, unnamed before", others().any(|kind| !below(kind))),
            (
                "open, unnamed between",
                others().any(|kind| below(kind) && above(kind)),
            ),
            ("open, unnamed after", others().any(|kind| !above(kind))),
        ]
    }

    /// The sorts of a pair; none if the shape names no outgoing kind.
    fn sorts(&self, (card, shape): Pair) -> Vec<(&'static str, bool)> {
        let definition = self.setting.template.definition(shape);
        let part = &definition.part;
        if leaving(part).is_empty() {
            return Vec::new();
        }
        let mut sorts = self.of_shape(part);
        if is_flat(part) {
            sorts.extend(self.of_links(part, card));
        }
        if definition.open {
            sorts.extend(self.of_unnamed(part, card));
        }
        sorts
    }

    /// Adds this sheet to a tally.
    fn tell(&self, tally: &mut Tally) {
        let mut counting = Counting::new(&self.setting);
        let mut shown = BTreeSet::new();
        for pair in self.setting.pairs() {
            counting.turn_to(pair.0);
            let fits = usize::from(counting.fits(pair.1));
            let sorts = self.sorts(pair).into_iter().filter(|(_, holds)| *holds);
            shown.extend(sorts.map(|(sort, _)| (sort, fits)));
        }
        for (sort, fits) in shown {
            tally.entry(sort).or_default()[fits] += 1;
        }
    }
}

/// The links of a part that start at a card.
fn leaving(part: &Part) -> Vec<Link> {
    let links = part.links().into_iter();
    links.filter(|link| link.label.way == Way::Outgoing).collect()
}

/// All sorts of pairs must come up, and of each some must fit and some not.
fn often(tally: &Tally, least: usize) {
    assert_eq!(tally.len(), 28, "{tally:#?}");
    for (sort, counts) in tally {
        assert!(counts.iter().all(|count| *count >= least), "{sort}: {counts:?}");
    }
}

#[test]
fn the_random_sheets_have_every_sort_of_flat_shapes_and_runs() {
    let mut random = Random::new(71);
    let mut tally = Tally::new();
    for _ in 0..750 {
        let scale = flat::scale(&mut random);
        Read::new(&flat::flat(&mut random, scale)).tell(&mut tally);
    }
    often(&tally, 30);
}

#[test]
fn the_fixed_sheets_have_every_sort_of_flat_shapes_and_runs() {
    let mut tally = Tally::new();
    for (_, files) in [runs::small(), runs::most::most()].concat() {
        Read::new(&files).tell(&mut tally);
    }
    often(&tally, 1);
}

#[test]
fn the_longest_runs_are_those_that_a_script_can_have() {
    let sheets = runs::most::most();
    for ((_, files), (card, number, lengths, shapes)) in sheets.iter().zip([
        (Card(1023), 8192, vec![1, 1023, 1024], vec![0, 2, 4, 5, 7]),
        (Card(0), 8191, vec![127, 128], vec![0, 1, 3, 4]),
    ]) {
        let read = Read::new(files);
        let counts = read.counts[card.index()].values();
        assert_eq!((files.script[1], counts.clone().sum()), (8192, number));
        assert_eq!(
            counts.copied().collect::<BTreeSet<_>>(),
            lengths.into_iter().collect()
        );
        let (_, grid) = links::largest(&read.setting);
        let has = |shape: &u16| grid[read.setting.place((card, Shape(*shape)))] == 1;
        let had: Vec<u16> = (0..read.setting.template.shapes()).filter(has).collect();
        assert_eq!(had, shapes);
    }
}

#[test]
fn heavy_sheets_have_flat_shapes_or_none() {
    // Stars of nothing fill up the last shape.
    let dense = Read::new(&densest()).setting.template;
    let flat = dense.parts().map(is_flat);
    assert!(flat.eq((0..32).map(|shape| shape < 31)));
    for files in [nested::choices(), nested::groups()] {
        let Read { setting, .. } = Read::new(&files);
        let (template, script) = (&setting.template, &setting.script);
        assert_eq!(
            (files.template.len(), template.kinds, template.shapes()),
            (4096, 64, 32)
        );
        assert_eq!(
            (script.cards, script.links.len(), files.bookings[0]),
            (1024, 8192, 1024)
        );
        assert!(!template.parts().any(is_flat));
        // Each 16th card doesn't fit every other shape, and that is enough to strike all.
        let mut counting = Counting::new(&setting);
        let fitting = setting.pairs().filter(|(card, shape)| {
            counting.turn_to(*card);
            counting.fits(*shape)
        });
        assert_eq!(fitting.count(), 1024 * 32 - 64 * 16);
        assert_eq!(links::largest(&setting).0.struck, 1024 * 32);
    }
}
