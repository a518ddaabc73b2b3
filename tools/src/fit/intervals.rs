//! The way of section 8.2: the interval of repetitions i for which the counts of a part's labels are a sum of
//! i of its bags. The counts fit a shape if 1 is inside the interval of its part and, if the shape is closed, no other
//! outgoing kind counts anything.

use crate::labels::{Labelled, Way};
use crate::template::{Definition, Link, Part};

/// An interval of repetitions that isn't empty: `low` up to `high`, or up without end.
#[derive(Clone, Copy, PartialEq, Eq, Debug)]
pub struct Interval {
    /// The lowest repetition.
    pub low: u64,
    /// The highest repetition; none for no end.
    pub high: Option<u64>,
}

/// What one part says about the counts.
#[derive(Clone, Copy, Debug)]
pub struct Verdict {
    /// The interval of repetitions; none if it is empty.
    pub interval: Option<Interval>,
    /// Whether the counts of the part's labels are all 0.
    pub all_zero: bool,
}

/// Whether the counts fit a shape.
pub fn fits(definition: &Definition, counts: &Labelled<u16>) -> bool {
    let part = &definition.part;
    let one_is_inside = verdict(part, counts)
        .interval
        .is_some_and(|interval| interval.has(1));
    one_is_inside && (definition.open || others_are_zero(part, counts))
}

/// Whether each outgoing kind that the part doesn't name counts 0; such incoming kinds are ignored.
fn others_are_zero(part: &Part, counts: &Labelled<u16>) -> bool {
    let named = part.named(counts.kinds());
    let mut others = counts.iter().filter(|(label, _)| named[*label].is_none());
    others.all(|(label, count)| *count == 0 || label.way == Way::Incoming)
}

/// The interval of a part.
pub fn verdict(part: &Part, counts: &Labelled<u16>) -> Verdict {
    let none = Interval {
        low: 0,
        high: Some(0),
    };
    match part {
        Part::Nothing => Verdict {
            interval: Some(Interval::up_from(0)),
            all_zero: true,
        },
        Part::Link(link) => Verdict {
            interval: link_interval(link, u64::from(counts[link.label])),
            all_zero: counts[link.label] == 0,
        },
        Part::Choice(parts) => group(parts, counts, none, |a, b| Some(a.plus(b))),
        Part::All(parts) => group(parts, counts, Interval::up_from(0), Interval::and),
        Part::Optional(part) => wrapped(part, counts, |inner| {
            inner.interval.map(|interval| Interval::up_from(0).plus(interval))
        }),
        Part::Star(part) => wrapped(part, counts, |inner| match inner.all_zero {
            true => Some(Interval::up_from(0)),
            false => inner.interval.map(|_| Interval::up_from(1)),
        }),
        Part::Plus(part) => wrapped(part, counts, |inner| match inner.all_zero {
            true => inner.interval,
            false => inner.interval.map(|interval| Interval { low: 1, ..interval }),
        }),
    }
}

/// What a star, a plus or an optional says, by what the part within it says.
fn wrapped(part: &Part, counts: &Labelled<u16>, interval: fn(Verdict) -> Option<Interval>) -> Verdict {
    let inner = verdict(part, counts);
    Verdict {
        interval: interval(inner),
        ..inner
    }
}

/// Those i with i × low ≤ count ≤ i × high.
pub fn link_interval(link: &Link, count: u64) -> Option<Interval> {
    let low = match link.high {
        _ if count == 0 => 0,
        None => 1,
        Some(0) => return None,
        Some(high) => count.div_ceil(u64::from(high)),
    };
    let high = if link.low == 0 {
        None
    } else {
        Some(count / u64::from(link.low))
    };
    Interval::new(low, high)
}

/// Joins the intervals of all parts, from `start`; an empty one makes the whole empty.
fn group(
    parts: &[Part],
    counts: &Labelled<u16>,
    start: Interval,
    join: fn(Interval, Interval) -> Option<Interval>,
) -> Verdict {
    let mut whole = Verdict {
        interval: Some(start),
        all_zero: true,
    };
    for part in parts {
        let one = verdict(part, counts);
        whole.all_zero &= one.all_zero;
        whole.interval = match (whole.interval, one.interval) {
            (Some(before), Some(this)) => join(before, this),
            _ => None,
        };
    }
    whole
}

impl Interval {
    /// The interval with these ends, unless it is empty.
    fn new(low: u64, high: Option<u64>) -> Option<Interval> {
        match high {
            Some(high) if high < low => None,
            _ => Some(Interval { low, high }),
        }
    }

    /// This number and all above it.
    pub fn up_from(low: u64) -> Interval {
        Interval { low, high: None }
    }

    /// Whether a number is inside.
    pub fn has(self, number: u64) -> bool {
        self.low <= number && self.high.is_none_or(|high| number <= high)
    }

    /// All sums of a number from each.
    pub fn plus(self, other: Interval) -> Interval {
        let high = match (self.high, other.high) {
            (Some(one), Some(two)) => Some(one + two),
            _ => None,
        };
        Interval {
            low: self.low + other.low,
            high,
        }
    }

    /// The numbers in both.
    pub fn and(self, other: Interval) -> Option<Interval> {
        let high = match (self.high, other.high) {
            (Some(one), Some(two)) => Some(one.min(two)),
            (one, two) => one.or(two),
        };
        Interval::new(self.low.max(other.low), high)
    }
}
