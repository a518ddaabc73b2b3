//! Where things stand in the words of a template that is well-formed.

use crate::template::{ALL, CHOICE, OPEN, OPTIONAL, OUTGOING, STAR};

/// One part of the template.
#[derive(Clone, Copy, PartialEq, Eq, Debug)]
pub struct Spot {
    /// The place of the part's code.
    pub place: usize,
    /// The place of its shape's count of words.
    pub count_place: usize,
    /// How deep the part lies.
    pub depth: usize,
}

/// All places of a template.
#[derive(Clone, Default, Debug)]
pub struct Layout {
    /// The places of the shapes' counts of words.
    pub counts: Vec<usize>,
    /// All parts.
    pub parts: Vec<Spot>,
    /// The links among them.
    pub links: Vec<Spot>,
    /// The groups among them.
    pub groups: Vec<Spot>,
}

/// The layout of a well-formed template.
pub fn layout(words: &[u16]) -> Layout {
    let mut layout = Layout::default();
    let mut place = 2;
    for _ in 0..words[1] {
        layout.counts.push(place);
        let open = words[place + 1] == OPEN;
        let whole = Spot {
            place: place + 1 + usize::from(open),
            count_place: place,
            depth: 1,
        };
        place = layout.part(words, whole);
    }
    layout
}

impl Layout {
    /// Notes the part at this spot and those inside it; the place after it.
    fn part(&mut self, words: &[u16], spot: Spot) -> usize {
        self.parts.push(spot);
        let inner = |place| Spot {
            place,
            depth: spot.depth + 1,
            ..spot
        };
        match words[spot.place] {
            STAR..=OPTIONAL => self.part(words, inner(spot.place + 1)),
            CHOICE | ALL => {
                self.groups.push(spot);
                (0..words[spot.place + 1]).fold(spot.place + 2, |place, _| self.part(words, inner(place)))
            }
            OUTGOING.. => {
                self.links.push(spot);
                spot.place + 4
            }
            _ => spot.place + 1,
        }
    }
}
