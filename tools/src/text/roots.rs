//! Why pairs aren't in the largest typing. A pair whose own links don't fit is a root; any other that is struck has
//! a link whose far card can't have the shape needed there. Each is told by the shortest path to a root.

use crate::numbers::Shape;
use crate::typing::counting::Counting;
use crate::typing::met::Need;
use crate::typing::{Pair, Setting};
use std::collections::VecDeque;

/// Why a pair is struck.
#[derive(Clone, Copy, PartialEq, Eq, Debug)]
enum Cause {
    /// Its own links don't fit.
    Links,
    /// It needs a pair that is struck.
    Need(Need),
}

/// The cause of each pair that is struck.
#[derive(Clone, Debug)]
pub struct Roots {
    shapes: usize,
    causes: Vec<Option<Cause>>,
}

impl Roots {
    /// Finds the causes breadth-first, from the roots to those who need them.
    pub fn new(setting: &Setting) -> Roots {
        let mut roots = Roots {
            shapes: usize::from(setting.template.shapes()),
            causes: vec![None; setting.size()],
        };
        let mut queue: VecDeque<Pair> = misfits(setting).into();
        for pair in &queue {
            roots.causes[setting.place(*pair)] = Some(Cause::Links);
        }
        let named = setting.template.named();
        while let Some((card, needed)) = queue.pop_front() {
            for end in setting.script.ends_of(card) {
                let label = end.label.turned();
                for (shape, names) in (0..).map(Shape).zip(&named) {
                    let cause = &mut roots.causes[setting.place((end.far, shape))];
                    if names[label] == Some(needed) && cause.is_none() {
                        *cause = Some(Cause::Need((label, (card, needed))));
                        queue.push_back((end.far, shape));
                    }
                }
            }
        }
        roots
    }

    /// The steps from a pair to its root, each to a pair that isn't there; none if it is a root itself, and nothing if
    /// the pair isn't struck.
    pub fn steps(&self, pair: Pair) -> Option<Vec<Need>> {
        let mut steps = Vec::new();
        let mut at = pair;
        while let Cause::Need(step) = self.causes[at.0.index() * self.shapes + at.1.index()]? {
            steps.push(step);
            at = step.1;
        }
        Some(steps)
    }
}

/// The pairs whose card's links don't fit the shape.
fn misfits(setting: &Setting) -> Vec<Pair> {
    let mut counting = Counting::new(setting);
    let mut misfits = Vec::new();
    for card in setting.cards() {
        counting.turn_to(card);
        let shapes = (0..setting.template.shapes()).map(Shape);
        misfits.extend(
            shapes
                .filter(|shape| !counting.fits(*shape))
                .map(|shape| (card, shape)),
        );
    }
    misfits
}
