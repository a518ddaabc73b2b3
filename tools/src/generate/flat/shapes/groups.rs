//! Shapes of several groups, made for a card: stars, pluses, optionals and choices of a few links each, beside each
//! other in an all. In some shapes the links themselves are beside each other.

use super::Maker;
use crate::template::{Definition, Part};

impl Maker<'_> {
    /// A shape of groups that one of the cards fits by its counts, unless the bounds of a link are made to miss its
    /// count, or a choice takes one link of several.
    pub fn grouped(&mut self) -> Definition {
        let model = self.models[self.random.below(self.models.len())].clone();
        let open = self.random.chance(1, 3);
        let mut labels = self.labels(&model, open);
        self.random.shuffle(&mut labels);
        let bags = self.random.pick(&[1, 1, 2]);
        let mut parts = self.links(&labels, &model, bags);
        if bags > 1 || self.random.chance(1, 2) {
            parts = self.groups(parts, bags);
        }
        Definition {
            open,
            part: Part::all_of(parts),
        }
    }

    /// The links in groups of up to three.
    fn groups(&mut self, mut links: Vec<Part>, bags: u16) -> Vec<Part> {
        let mut groups = Vec::new();
        while !links.is_empty() {
            let rest = links.len() - self.random.between(1, links.len().min(3));
            let group = links.split_off(rest);
            groups.push(self.group(group, bags));
        }
        groups
    }

    /// A group of these links that takes so many bags of them, one or two.
    fn group(&mut self, mut links: Vec<Part>, bags: u16) -> Part {
        if links.len() == 1 {
            links.push(Part::Nothing);
        }
        let sort = match bags {
            1 => self.random.below(6),
            _ => self.random.below(3),
        };
        match sort {
            0 => Part::Star(Box::new(Part::All(links))),
            1 => Part::Plus(Box::new(Part::All(links))),
            2 => Part::Star(Box::new(Part::Choice(links))),
            3 => Part::Choice(links),
            4 => Part::Optional(Box::new(Part::All(links))),
            _ => Part::All(links),
        }
    }
}
