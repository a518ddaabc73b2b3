//! The count samples P1 to P12 of docs/FORMAT.md. `questions` has more for *Fit counts*, fixed and random ones.

pub mod questions;

use crate::fit;
use crate::fit::lines::written;
use crate::generate::parts::outgoing;
use crate::labels::{Labelled, Way};
use crate::numbers::Kind;
use crate::template::{self, Definition, Link, Part, Template};

/// One entry of the table: counts under a part of kinds a and b, and whether the page says that they fit.
#[derive(Clone, Debug)]
pub struct Sample {
    /// The label, P1 to P12.
    pub label: &'static str,
    /// The part, as the page writes it.
    pub text: &'static str,
    /// The part.
    pub part: Part,
    /// The counts of a and b, and those of what arrives, which are 0.
    pub counts: [u16; 4],
    /// What the page says.
    pub fits: bool,
}

impl Sample {
    /// A template with two kinds whose only shape is this part.
    pub fn template(&self) -> Vec<u16> {
        one_shape(2, Definition::closed(self.part.clone()))
    }
}

/// A template with only this shape.
fn one_shape(kinds: u16, shape: Definition) -> Vec<u16> {
    template::write(&Template {
        kinds,
        definitions: vec![shape],
    })
}

/// A name, a shape, and counts that fit it or not.
pub type Counted = (String, Definition, Labelled<u16>);

/// Adds what isn't in the list yet, by another name or its own.
fn push_once(list: &mut Vec<Counted>, one: Counted) {
    if !list.iter().any(|other| (&other.1, &other.2) == (&one.1, &one.2)) {
        list.push(one);
    }
}

/// A row of the table: a label, a part as the page writes it, the part, and counts of a and b with the page's answers.
type Row = (&'static str, &'static str, Part, Vec<([u16; 2], bool)>);

/// The table of the page.
pub fn table() -> Vec<Sample> {
    let mut table = Vec::new();
    for (label, text, part, entries) in rows() {
        for ([a, b], fits) in entries {
            table.push(Sample {
                label,
                text,
                part: part.clone(),
                counts: [a, b, 0, 0],
                fits,
            });
        }
    }
    table
}

fn rows() -> Vec<Row> {
    let a = |low, high| outgoing(0, 0, low, Some(high));
    let b = |low, high| outgoing(1, 0, low, Some(high));
    let star = |part| Part::Star(Box::new(part));
    let plus = |part| Part::Plus(Box::new(part));
    let pair = Part::All(vec![a(1, 1), b(1, 1)]);
    let either = Part::Choice(vec![a(1, 1), b(1, 1)]);
    let one_or_two = Part::Choice(vec![a(1, 1), b(2, 2)]);
    vec![
        ("P1", "nothing", Part::Nothing, vec![([0, 0], true)]),
        ("P2", "nothing", Part::Nothing, vec![([1, 0], false)]),
        ("P3", "a[2;3]", a(2, 3), vec![([1, 0], false)]),
        ("P4", "a[2;3]", a(2, 3), vec![([2, 0], true), ([3, 0], true)]),
        ("P5", "a[2;3]", a(2, 3), vec![([4, 0], false)]),
        ("P6", "star a[3;3]", star(a(3, 3)), vec![([4, 0], false)]),
        ("P7", "star a[3;3]", star(a(3, 3)), vec![([6, 0], true)]),
        (
            "P8",
            "star all(a[1;1], b[1;1])",
            star(pair),
            vec![([2, 1], false), ([2, 2], true)],
        ),
        (
            "P9",
            "choice(a[1;1], b[1;1])",
            either,
            vec![([1, 1], false), ([1, 0], true), ([0, 0], false)],
        ),
        ("P10", "plus a[0;1]", plus(a(0, 1)), vec![([0, 0], true)]),
        (
            "P11",
            "plus choice(a[1;1], b[2;2])",
            plus(one_or_two),
            vec![([1, 4], true), ([1, 1], false)],
        ),
        ("P12", "a[0;0]", a(0, 0), vec![([1, 0], false), ([0, 0], true)]),
    ]
}

/// The samples as they are, with kind b arriving, and with both kinds arriving. None stands there twice.
pub fn turned() -> Vec<Counted> {
    let mut turned = Vec::new();
    for sample in table() {
        let [a, b, ..] = sample.counts;
        let ways: [(&str, &[Kind], [u16; 4]); 3] = [
            ("out", &[], [a, b, 0, 0]),
            ("b-in", &[Kind(1)], [a, 0, 0, b]),
            ("in", &[Kind(0), Kind(1)], [0, 0, a, b]),
        ];
        for (word, arriving, counts) in ways {
            let turn = |link: Link| Link {
                label: match arriving.contains(&link.label.kind) {
                    true => link.label.turned(),
                    false => link.label,
                },
                ..link
            };
            let name = format!("{}-{a}-{b}-{word}", sample.label);
            let shape = Definition::closed(sample.part.with_links(&turn));
            push_once(&mut turned, (name, shape, counts.to_vec().into()));
        }
    }
    turned
}

/// The same as open shapes, and with some links of each outgoing kind that they don't name.
pub fn opened() -> Vec<Counted> {
    let mut opened = Vec::new();
    for (name, Definition { part, .. }, mut counts) in turned() {
        for (label, far) in part.named(counts.kinds()).iter() {
            if label.way == Way::Outgoing && far.is_none() {
                counts[label] = 3 + label.kind.0;
            }
        }
        push_once(
            &mut opened,
            (format!("{name}-open"), Definition::open(part), counts),
        );
    }
    opened
}

/// The table as text, each answer found by both methods. An error says where they or the document differ.
pub fn table_text() -> Result<String, String> {
    let mut text = String::new();
    for sample in table() {
        let words = sample.template();
        let by_intervals = written(fit::fit(&words, 0, &sample.counts));
        let by_bags = written(fit::fit_by_bags(&words, 0, &sample.counts));
        let page = written(Ok(sample.fits));
        let counts = sample.counts.map(|count| count.to_string()).join(",");
        let line = format!("{} {}: {counts}", sample.label, sample.text);
        if by_intervals != page || by_bags != page {
            return Err(format!(
                "{line}: the page says {page}, intervals say {by_intervals}, enumeration says {by_bags}"
            ));
        }
        text += &format!("{line} {page}\n");
    }
    Ok(text)
}
