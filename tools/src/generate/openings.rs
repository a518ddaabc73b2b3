//! Which shapes of random templates are open, and links that open shapes ignore.

use super::scripts;
use crate::labels::Label;
use crate::numbers::{Card, Kind, Shape};
use crate::random::Random;
use crate::template::{self, Part, Template, MOST_WORDS};
use crate::typing::{links, Pair, Setting};

/// How many of four shapes of a template are open: none in some templates, all in others.
pub fn share(random: &mut Random) -> usize {
    random.pick(&[0, 0, 0, 1, 1, 1, 2, 4])
}

/// Opens some shapes of a template of closed ones, as long as the words suffice. A few of them then take every card.
pub fn open(random: &mut Random, template: &mut Template) {
    let share = share(random);
    let room = MOST_WORDS - template::write(template).len();
    for definition in template.definitions.iter_mut().take(room) {
        definition.open = random.chance(share, 4);
        if definition.open && random.chance(1, 12) {
            definition.part = Part::Nothing;
        }
    }
}

/// The script with some links more that an open shape of their card ignores, if the largest typing has such shapes.
/// Many of them lead to cards that have no shape. There are at most so many links afterwards.
pub fn stray(random: &mut Random, template: &Template, script: Vec<u16>, most: usize) -> Vec<u16> {
    let Ok(setting) = Setting::read(&template::write(template), &script) else {
        return script;
    };
    let (_, grid) = links::largest(&setting);
    let is_kept = |pair: &Pair| grid[setting.place(*pair)] == 1 && template.definition(pair.1).open;
    let open: Vec<Pair> = setting.pairs().filter(is_kept).collect();
    if open.is_empty() {
        return script;
    }
    let rows = grid.chunks(usize::from(template.shapes()));
    let bare = setting.cards().zip(rows).filter(|(_, row)| !row.contains(&1));
    let bare: Vec<Card> = bare.map(|(card, _)| card).collect();
    let mut links = scripts::links(&script);
    for _ in 0..random.between(1, 2 + open.len() / 3) {
        let (card, shape) = random.pick(&open);
        let target = match bare.is_empty() || random.chance(1, 2) {
            true => Card(random.word(0, script[0] - 1)),
            false => random.pick(&bare),
        };
        let kinds = ignored(template, shape);
        if !kinds.is_empty() && links.len() < most {
            links.insert((card.0, random.pick(&kinds), target.0));
        }
    }
    scripts::words(script[0], &links)
}

/// The kinds that an open shape ignores as outgoing.
fn ignored(template: &Template, shape: Shape) -> Vec<u16> {
    let named = template.part(shape).named(template.kinds);
    let is_ignored = |kind: &u16| named[Label::outgoing(Kind(*kind))].is_none();
    (0..template.kinds).filter(is_ignored).collect()
}
