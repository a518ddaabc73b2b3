//! What a card's links lack for a shape, or have too many of: told by the nearest counts that fit.

use super::costs::{range, Costed};
use crate::labels::{Label, Labelled};
use crate::template::{Definition, Part};

/// A label with which there are too few links or too many.
#[derive(Clone, Copy, PartialEq, Eq, Debug)]
pub struct Lack {
    /// The label.
    pub label: Label,
    /// The fewest links that are wanted.
    pub low: u64,
    /// The most that are wanted; none for no limit.
    pub high: Option<u64>,
    /// How many there are.
    pub there: u16,
}

impl Lack {
    /// How many links have to be added or taken away.
    pub fn distance(&self) -> u64 {
        let there = u64::from(self.there);
        let surplus = self.high.map_or(0, |high| there.saturating_sub(high));
        self.low.saturating_sub(there) + surplus
    }
}

/// What the nearest counts take of the shape, where it leaves room.
#[derive(Clone, PartialEq, Eq, Debug)]
pub enum Taken {
    /// This branch of a choice came nearest; these came as near.
    Branch(Part, Vec<Part>),
    /// This part is taken that often.
    Times(Part, usize),
}

/// Why counts don't fit a shape.
#[derive(Clone, PartialEq, Eq, Debug)]
pub struct Misfit {
    /// The labels at fault.
    pub lacks: Vec<Lack>,
    /// What the nearest counts take.
    pub taken: Vec<Taken>,
}

impl Misfit {
    /// How many links have to be added or taken away.
    pub fn distance(&self) -> u64 {
        self.lacks.iter().map(Lack::distance).sum()
    }
}

/// Why the counts don't fit a shape; none if they do.
pub fn misfit(definition: &Definition, counts: &Labelled<u16>) -> Option<Misfit> {
    let mut misfit = Misfit {
        lacks: Vec::new(),
        taken: Vec::new(),
    };
    let part = &definition.part;
    misfit.look(&Costed::new(part, counts), 1, counts);
    let (named, looked_at) = (part.named(counts.kinds()), definition.looked_at(counts.kinds()));
    for (label, there) in counts.iter() {
        if looked_at[label] && named[label].is_none() && *there > 0 {
            misfit.lack(label, (0, Some(0)), *there);
        }
    }
    (!misfit.lacks.is_empty()).then_some(misfit)
}

impl Misfit {
    fn lack(&mut self, label: Label, (low, high): (u64, Option<u64>), there: u16) {
        self.lacks.push(Lack {
            label,
            low,
            high,
            there,
        });
    }

    /// Looks for what is wrong if a part is repeated this often.
    fn look(&mut self, costed: &Costed, times: usize, counts: &Labelled<u16>) {
        if costed.cost(times) == 0 {
            return;
        }
        let part = costed.part;
        match part {
            Part::Nothing => {}
            Part::Link(link) => self.lack(link.label, range(link, times), counts[link.label]),
            Part::Choice(_) => self.choice(costed, times, counts),
            _ => {
                let each = costed.inner_times(times);
                let is_free = matches!(part, Part::Star(_) | Part::Plus(_)) && times > 0;
                if is_free || (each, times) == (0, 1) {
                    self.taken.push(Taken::Times(costed.inner[0].part.clone(), each));
                }
                for inner in &costed.inner {
                    self.look(inner, each, counts);
                }
            }
        }
    }

    fn choice(&mut self, costed: &Costed, times: usize, counts: &Labelled<u16>) {
        let shares = costed.shares(times);
        if times == 1 {
            let step = |branch: &Costed| branch.cost(1) as i64 - branch.cost(0) as i64;
            let taken = shares.iter().position(|share| *share == 1).unwrap_or(0);
            let nearest = &costed.inner[taken];
            let others = costed.inner.iter().enumerate();
            let as_near = others.filter(|(place, other)| *place != taken && step(other) == step(nearest));
            let as_near = as_near.map(|(_, other)| other.part.clone()).collect();
            self.taken.push(Taken::Branch(nearest.part.clone(), as_near));
        }
        for (branch, share) in costed.inner.iter().zip(shares) {
            self.look(branch, share, counts);
        }
    }
}
