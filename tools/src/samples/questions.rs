//! Questions for *Fit counts*: fixed ones, and random ones that are small enough for enumeration of bags.

use super::{one_shape, opened, turned};
use crate::fit::intervals::fits;
use crate::generate::arriving::GUESTS;
use crate::generate::parts::{draw, outgoing, small_bounds, Drawn, PartMaker};
use crate::generate::{openings, runs};
use crate::labels::{Label, Labelled};
use crate::numbers::Shape;
use crate::random::Random;
use crate::template::{self, Definition, Link, Part, Template, MOST_COUNT, MOST_KINDS};
use crate::typing::Setting;

/// A question for *Fit counts*.
#[derive(Clone, Debug)]
pub struct Question {
    /// The words of a template.
    pub template: Vec<u16>,
    /// A shape of it.
    pub shape: u16,
    /// A count for each kind each way.
    pub counts: Vec<u16>,
}

/// The questions that are the same for every seed: the samples both ways, closed and open, alone and with counts that
/// are ignored; the page's items and guests; as many counts as there should be, and others; the first count that is
/// too large; open shapes; and the shapes of the sheets of runs.
pub fn fixed() -> Vec<Question> {
    let mut questions = Vec::new();
    for (_, shape, counts) in [turned(), opened()].concat() {
        let looked_at = shape.looked_at(2);
        let with_others = counts.iter().map(|(label, count)| match looked_at[label] {
            true => *count,
            false => 3 + label.kind.0,
        });
        let mut both = vec![counts.values().to_vec(), with_others.collect()];
        both.dedup();
        let template = one_shape(2, shape);
        questions.extend(both.iter().map(|counts| asked(&template, 0, counts)));
    }
    let guests: [(u16, &[u16]); 6] = [
        (1, &[0, 1]),
        (1, &[0, 0]),
        (1, &[1, 1]),
        (0, &[1, 7]),
        (0, &[1]),
        (0, &[1, 8193]),
    ];
    questions.extend(guests.map(|(shape, counts)| asked(&GUESTS, shape, counts)));
    questions.extend(lengths());
    for shape in [Definition::closed, Definition::open] {
        questions.extend(too_large(&one_shape(2, shape(outgoing(0, 0, 0, None)))));
    }
    questions.extend(open());
    questions.extend(of_runs());
    questions
}

fn asked(template: &[u16], shape: u16, counts: &[u16]) -> Question {
    Question {
        template: template.to_vec(),
        shape,
        counts: counts.to_vec(),
    }
}

/// As many counts as kinds, as twice the kinds, and around that; with and without a shape that isn't there.
fn lengths() -> Vec<Question> {
    let mut questions = Vec::new();
    for kinds in [1, 2, MOST_KINDS] {
        let template = one_shape(kinds, Definition::closed(Part::Nothing));
        let all = 2 * usize::from(kinds);
        for length in [0, all / 2, all - 1, all, all + 1] {
            questions.push(asked(&template, 0, &vec![0; length]));
        }
        questions.push(asked(&template, 0, &vec![MOST_COUNT + 1; all - 1]));
        questions.push(asked(&template, 1, &vec![MOST_COUNT + 1; all + 1]));
    }
    questions
}

/// Each count of two kinds at its limit and above it, in both halves, and two that are above it.
fn too_large(template: &[u16]) -> Vec<Question> {
    let mut questions = Vec::new();
    for place in 0..4 {
        for count in [MOST_COUNT, MOST_COUNT + 1] {
            let mut counts = [0; 4];
            counts[place] = count;
            questions.push(asked(template, 0, &counts));
        }
        let mut counts = [MOST_COUNT + 1; 4];
        counts[..place].fill(1);
        questions.push(asked(template, 0, &counts));
    }
    questions
}

/// Open shapes: one that names one of two kinds, one that names none and one that names all, the first and the last of
/// a template, and a part that is as deep as can be.
fn open() -> Vec<Question> {
    let one_of_two = [2, 1, 5, 18, 256, 0, 1, 1];
    let all = [1, 1, 11, 18, 17, 2, 256, 0, 1, 1, 320, 0, 1, 1];
    let first_and_last = [1, 3, 5, 18, 256, 0, 1, 1, 4, 256, 0, 1, 1, 2, 18, 0];
    let deep = [vec![2, 1, 16, 18], vec![1; 11], vec![256, 0, 2, 2]].concat();
    let rows: [(&[u16], u16, &[u16]); 18] = [
        (&one_of_two, 0, &[1, 7, 0, 0]),
        (&one_of_two, 0, &[2, 7, 0, 0]),
        (&one_of_two, 0, &[0, 7, 1, 0]),
        (&one_of_two, 0, &[1, 8192, 8192, 8192]),
        (&one_of_two, 0, &[1, 8193, 0, 0]),
        (&one_of_two, 0, &[1, 7]),
        (&one_of_two, 1, &[1, 7, 0, 0]),
        (&[1, 1, 2, 18, 0], 0, &[0, 0]),
        (&[1, 1, 2, 18, 0], 0, &[8192, 8192]),
        (&all, 0, &[1, 1]),
        (&all, 0, &[1, 0]),
        (&all, 0, &[2, 1]),
        (&first_and_last, 0, &[1, 0]),
        (&first_and_last, 0, &[2, 0]),
        (&first_and_last, 1, &[2, 0]),
        (&first_and_last, 2, &[2, 0]),
        (&deep, 0, &[4, 3, 0, 0]),
        (&deep, 0, &[3, 3, 0, 0]),
    ];
    let rows = rows.into_iter();
    rows.map(|(template, shape, counts)| asked(template, shape, counts))
        .collect()
}

/// The shapes of the sheets of runs, but for the last ones, with the counts of a card that fits and of one that
/// doesn't by turns.
fn of_runs() -> Vec<Question> {
    let to_itself = |link: Link| Link {
        shape: Shape(0),
        ..link
    };
    let mut questions = Vec::new();
    for (_, files) in runs::small() {
        let Ok(setting) = Setting::read(&files.template, &files.script) else {
            continue;
        };
        let (kinds, shapes) = (setting.template.kinds, &setting.template.definitions);
        let of_card = |card| setting.script.counts_of(card, kinds);
        for shape in &shapes[..shapes.len() - 1] {
            let is_fitting = questions.len() % 2 == 0;
            let fitting = setting
                .cards()
                .map(of_card)
                .filter(|counts| fits(shape, counts) == is_fitting);
            if let Some(counts) = fitting.last() {
                let part = shape.part.with_links(&to_itself);
                let alone = one_shape(kinds, Definition { part, ..*shape });
                questions.push(asked(&alone, 0, counts.values()));
            }
        }
    }
    questions
}

/// A random question with 1 to 3 kinds, parts that name up to 3 labels, and counts 0 to 4 of them.
pub fn question(random: &mut Random) -> Question {
    let kinds = random.word(1, 3);
    let shapes = random.word(1, 2);
    let share = openings::share(random);
    let mut definitions = Vec::new();
    for _ in 0..shapes {
        let mut used: Vec<Label> = Label::all(kinds).collect();
        random.shuffle(&mut used);
        let fewest = usize::from(random.chance(11, 12));
        used.truncate(random.between(fewest, used.len().min(3)));
        let (open, depth) = (random.chance(share, 4), random.between(2, 5));
        let mut maker = PartMaker {
            random,
            shapes,
            bounds: small_bounds,
        };
        let part = maker.part(&used, depth);
        definitions.push(Definition { open, part });
    }
    let shape = random.word(0, shapes - 1);
    let mut counts: Vec<u16> = (0..2 * kinds).map(|_| random.word(0, 4)).collect();
    if random.chance(2, 3) {
        counts = drawn_counts(random, &definitions[usize::from(shape)], kinds);
    }
    if random.chance(1, 4) {
        let changed = random.below(counts.len());
        counts[changed] = random.word(0, 4);
    }
    Question {
        template: template::write(&Template { kinds, definitions }),
        shape,
        counts,
    }
}

/// Counts that are likely to fit the shape: at most 4 of each label that it names, and some of the others that it
/// ignores.
fn drawn_counts(random: &mut Random, shape: &Definition, kinds: u16) -> Vec<u16> {
    let mut bag = Drawn::new();
    draw(random, &shape.part, 2, &mut bag);
    let mut counts = Labelled::new(kinds, 0);
    for (label, is_looked_at) in shape.looked_at(kinds).iter() {
        if !is_looked_at {
            counts[label] = random.pick(&[0, 0, 1, 5, MOST_COUNT]);
        }
    }
    for ((label, _), number) in bag {
        counts[label] = number.min(4) as u16;
    }
    counts.values().to_vec()
}

/// So many questions of a seed: the fixed ones first, then random ones.
pub fn questions(seed: u64, count: usize) -> impl Iterator<Item = Question> {
    let mut random = Random::new(seed);
    let any = std::iter::repeat_with(move || question(&mut random));
    fixed().into_iter().chain(any).take(count)
}
