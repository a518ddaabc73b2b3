//! The definition of section 2.1, taken at its word: the set of a part's bags is written out, and the counts
//! fit if one of them has these counts. No interval is used here.
//!
//! A set may be infinite, so each bag that passes the counts of some label is left out. Nothing that matters is
//! lost: bags are only ever added to, so a bag that is too large stays too large.

use crate::labels::{Label, Labelled};
use crate::numbers::Shape;
use crate::template::{Definition, Link, Part};
use std::collections::{BTreeMap, BTreeSet};

/// How many copies of each (label, shape); those with no copy aren't in the map.
pub type Bag = BTreeMap<(Label, Shape), u16>;

/// A set of bags.
pub type Bags = BTreeSet<Bag>;

/// Whether the shape's part has a bag with these counts of all labels at which the shape looks.
pub fn fits(definition: &Definition, counts: &Labelled<u16>) -> bool {
    let looked_at = definition.looked_at(counts.kinds());
    let has_counts = |bag: &Bag| {
        let of_bag = label_counts(bag, counts.kinds());
        let mut numbers = of_bag.iter();
        numbers.all(|(label, number)| *number == counts[label] || !looked_at[label])
    };
    bags(&definition.part, counts).iter().any(has_counts)
}

/// The bags of a part that don't pass the counts of any label.
pub fn bags(part: &Part, counts: &Labelled<u16>) -> Bags {
    match part {
        Part::Nothing => only_empty(),
        Part::Link(link) => copies(link, counts[link.label]),
        Part::Choice(parts) => parts.iter().flat_map(|part| bags(part, counts)).collect(),
        Part::All(parts) => {
            let start = only_empty();
            parts.iter().fold(start, |sums_so_far, part| {
                sums(&sums_so_far, &bags(part, counts), counts)
            })
        }
        Part::Optional(part) => {
            let mut all = bags(part, counts);
            all.insert(Bag::new());
            all
        }
        Part::Star(part) => any_sums(&bags(part, counts), counts),
        Part::Plus(part) => {
            let once = bags(part, counts);
            sums(&once, &any_sums(&once, counts), counts)
        }
    }
}

/// The set that has the empty bag alone.
fn only_empty() -> Bags {
    Bags::from([Bag::new()])
}

/// The bags of low to high copies, up to `count`.
fn copies(link: &Link, count: u16) -> Bags {
    let most = link.high.unwrap_or(count).min(count);
    (link.low..=most)
        .map(|number| {
            if number == 0 {
                Bag::new()
            } else {
                Bag::from([((link.label, link.shape), number)])
            }
        })
        .collect()
}

/// The sums of one bag from each set.
fn sums(ones: &Bags, twos: &Bags, counts: &Labelled<u16>) -> Bags {
    let pairs = ones.iter().flat_map(|one| twos.iter().map(move |two| (one, two)));
    pairs.filter_map(|(one, two)| sum(one, two, counts)).collect()
}

/// The sum of two bags, unless it passes the counts.
fn sum(one: &Bag, two: &Bag, counts: &Labelled<u16>) -> Option<Bag> {
    let mut total = one.clone();
    for (entry, number) in two {
        *total.entry(*entry).or_insert(0) += number;
    }
    let of_total = label_counts(&total, counts.kinds());
    let within = of_total.iter().all(|(label, number)| *number <= counts[label]);
    within.then_some(total)
}

/// The sums of zero or more bags of the set: one bag more each time, until nothing new comes.
fn any_sums(once: &Bags, counts: &Labelled<u16>) -> Bags {
    let mut all = only_empty();
    loop {
        let longer = sums(&all, once, counts);
        let before = all.len();
        all.extend(longer);
        if all.len() == before {
            return all;
        }
    }
}

/// How many copies a bag has of each label, whatever the shape.
fn label_counts(bag: &Bag, kinds: u16) -> Labelled<u16> {
    let mut counts = Labelled::new(kinds, 0);
    for ((label, _), number) in bag {
        counts[*label] += number;
    }
    counts
}
