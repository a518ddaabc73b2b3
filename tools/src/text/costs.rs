//! How far counts are from those that a part takes. For each number of repetitions there is a cost: what has to be
//! added to the counts of the part's labels, or taken away, to make them a sum of that many bags of the part.
//!
//! As a function of the repetitions the cost of a link is convex, and so is that of any part made of convex ones. So
//! a choice shares repetitions out step by step, each to the branch where one more costs least.

use crate::labels::Labelled;
use crate::template::{Link, Part};

/// The cost of a link that is missing.
const MISSING: u64 = 1 << 20;
/// The cost of a link too many: a trifle more, so that what can be mended either way is told as still to come.
const SURPLUS: u64 = MISSING + 1;

/// A part with its costs.
pub struct Costed<'a> {
    /// The part.
    pub part: &'a Part,
    /// The parts in it, in their order.
    pub inner: Vec<Costed<'a>>,
    /// The cost for 0 repetitions, 1 and so on; none for a part without links, which costs nothing.
    costs: Vec<u64>,
    /// The fewest repetitions that cost least.
    least: usize,
}

impl<'a> Costed<'a> {
    /// A part with its costs for 0 to one repetition more than there are links with its labels. More never cost less.
    pub fn new(part: &'a Part, counts: &Labelled<u16>) -> Costed<'a> {
        let links = part.links();
        let total: usize = links.iter().map(|link| usize::from(counts[link.label])).sum();
        Costed::up_to(part, counts, total + 1)
    }

    fn up_to(part: &'a Part, counts: &Labelled<u16>, most: usize) -> Costed<'a> {
        let of = |part| Costed::up_to(part, counts, most);
        let inner: Vec<Costed> = match part {
            Part::Nothing | Part::Link(_) => Vec::new(),
            Part::Star(part) | Part::Plus(part) | Part::Optional(part) => vec![of(part)],
            Part::Choice(parts) | Part::All(parts) => parts.iter().map(of).collect(),
        };
        let has_costs = inner.iter().any(|part| !part.costs.is_empty());
        let mut costed = Costed {
            part,
            inner,
            costs: Vec::new(),
            least: 0,
        };
        costed.costs = match part {
            Part::Link(link) => {
                let count = counts[link.label];
                (0..=most).map(|times| link_cost(link, times, count)).collect()
            }
            _ if !has_costs => Vec::new(),
            Part::Choice(_) => costed.choice_costs(most),
            _ => (0..=most).map(|times| costed.sum(times)).collect(),
        };
        let cheapest = costed.costs.iter().enumerate().min_by_key(|(_, cost)| **cost);
        costed.least = cheapest.map_or(0, |(times, _)| times);
        costed
    }

    /// The cost for this many repetitions.
    pub fn cost(&self, times: usize) -> u64 {
        self.costs.get(times).copied().unwrap_or(0)
    }

    /// The cost of all inner parts, each repeated as is best for this many repetitions of the whole.
    fn sum(&self, times: usize) -> u64 {
        let each = self.inner_times(times);
        self.inner.iter().map(|part| part.cost(each)).sum()
    }

    /// How often the inner parts of anything but a choice are best repeated. Costs are convex, so what costs least
    /// in a range is the least of all, or the end of the range that is nearest to it.
    pub fn inner_times(&self, times: usize) -> usize {
        match self.part {
            Part::Star(_) if times > 0 => self.inner[0].least,
            Part::Plus(_) if times > 0 => self.inner[0].least.max(times),
            Part::Optional(_) => self.inner[0].least.min(times),
            _ => times,
        }
    }

    /// How often each branch of a choice is best repeated.
    pub fn shares(&self, times: usize) -> Vec<usize> {
        let mut shares = vec![0; self.inner.len()];
        for _ in 0..times {
            let next = self.next_share(&shares);
            shares[next] += 1;
        }
        shares
    }

    /// The first branch where one more repetition costs least.
    fn next_share(&self, shares: &[usize]) -> usize {
        let step = |branch: &usize| {
            let (part, share) = (&self.inner[*branch], shares[*branch]);
            part.cost(share + 1) as i64 - part.cost(share) as i64
        };
        (0..shares.len()).min_by_key(step).unwrap_or(0)
    }

    fn choice_costs(&self, most: usize) -> Vec<u64> {
        let mut shares = vec![0; self.inner.len()];
        let mut costs = Vec::with_capacity(most + 1);
        let mut cost: u64 = self.inner.iter().map(|part| part.cost(0)).sum();
        costs.push(cost);
        for _ in 0..most {
            let next = self.next_share(&shares);
            cost -= self.inner[next].cost(shares[next]);
            shares[next] += 1;
            cost += self.inner[next].cost(shares[next]);
            costs.push(cost);
        }
        costs
    }
}

/// How many links this many repetitions of a link part take, at least and at most.
pub fn range(link: &Link, times: usize) -> (u64, Option<u64>) {
    let times = times as u64;
    let high = match link.high {
        Some(high) => Some(times * u64::from(high)),
        None if times == 0 => Some(0),
        None => None,
    };
    (times * u64::from(link.low), high)
}

fn link_cost(link: &Link, times: usize, count: u16) -> u64 {
    let count = u64::from(count);
    let (low, high) = range(link, times);
    let surplus = high.map_or(0, |high| count.saturating_sub(high));
    low.saturating_sub(count) * MISSING + surplus * SURPLUS
}
