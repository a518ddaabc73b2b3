//! *Read a template*: the words of a template become a list of definitions, one per shape, or the first fault is told.
//! Refusals 1 to 12 and 64, in the order of docs/FORMAT.md: left to right, shape by shape.

use crate::labels::{Label, Labelled, Way};
use crate::numbers::{Kind, Shape};
use crate::refusal::Refusal;

/// The most words that a template has.
pub const MOST_WORDS: usize = 4096;
/// The most kinds.
pub const MOST_KINDS: u16 = 64;
/// The most shapes.
pub const MOST_SHAPES: u16 = 32;
/// The greatest depth; a shape's whole part has depth 1.
pub const MOST_DEPTH: usize = 12;
/// The most parts in a choice or an all.
pub const MOST_GROUP: u16 = 16;
/// The highest low or high, and the highest count.
pub const MOST_COUNT: u16 = 8192;
/// The high that means no limit.
pub const NO_LIMIT: u16 = 65535;

/// The code of nothing.
pub const NOTHING: u16 = 0;
/// The code of star.
pub const STAR: u16 = 1;
/// The code of plus.
pub const PLUS: u16 = 2;
/// The code of optional.
pub const OPTIONAL: u16 = 3;
/// The code of choice.
pub const CHOICE: u16 = 16;
/// The code of all.
pub const ALL: u16 = 17;
/// The code that makes a shape open, as its first word.
pub const OPEN: u16 = 18;
/// The code of an outgoing link of kind 0.
pub const OUTGOING: u16 = 256;
/// The code of an incoming link of kind 0.
pub const INCOMING: u16 = 320;

/// The code of links with this label.
pub fn code_of(label: Label) -> u16 {
    let first = match label.way {
        Way::Outgoing => OUTGOING,
        Way::Incoming => INCOMING,
    };
    first + label.kind.0
}

/// The label of the links with this code; none if it isn't the code of links.
pub fn label_of(code: u16) -> Option<Label> {
    match code {
        256..=319 => Some(Label::outgoing(Kind(code - OUTGOING))),
        320..=383 => Some(Label::incoming(Kind(code - INCOMING))),
        _ => None,
    }
}

/// A template that was read: its count of kinds, and what each shape is.
#[derive(Clone, PartialEq, Eq, Debug)]
pub struct Template {
    /// The count of kinds, L.
    pub kinds: u16,
    /// What each shape is; their number is S.
    pub definitions: Vec<Definition>,
}

/// What a shape is.
#[derive(Clone, PartialEq, Eq, Debug)]
pub struct Definition {
    /// Whether it ignores the links of outgoing kinds that its part doesn't name.
    pub open: bool,
    /// Its part.
    pub part: Part,
}

/// One part of a shape.
#[derive(Clone, PartialEq, Eq, Debug)]
pub enum Part {
    /// The empty bag alone.
    Nothing,
    /// Sums of zero or more bags of the part.
    Star(Box<Part>),
    /// Sums of one or more bags of the part.
    Plus(Box<Part>),
    /// A choice of nothing and the part.
    Optional(Box<Part>),
    /// The union of the parts.
    Choice(Vec<Part>),
    /// The sums of one bag from each part.
    All(Vec<Part>),
    /// Low to high copies of (label, shape).
    Link(Link),
}

/// A link part.
#[derive(Clone, Copy, PartialEq, Eq, Debug)]
pub struct Link {
    /// The label of the links that it takes.
    pub label: Label,
    /// The shape of the cards at their far ends.
    pub shape: Shape,
    /// The fewest copies.
    pub low: u16,
    /// The most copies; none for no limit.
    pub high: Option<u16>,
}

/// For each label, the shape that it is named with, if it is named.
pub type Named = Labelled<Option<Shape>>;

impl Template {
    /// A template of closed shapes with these parts.
    pub fn closed(kinds: u16, parts: Vec<Part>) -> Template {
        Template {
            kinds,
            definitions: parts.into_iter().map(Definition::closed).collect(),
        }
    }

    /// The count of shapes, S.
    pub fn shapes(&self) -> u16 {
        self.definitions.len() as u16
    }

    /// What a shape that is below S is.
    pub fn definition(&self, shape: Shape) -> &Definition {
        &self.definitions[shape.index()]
    }

    /// The part of a shape that is below S.
    pub fn part(&self, shape: Shape) -> &Part {
        &self.definition(shape).part
    }

    /// The part of each shape.
    pub fn parts(&self) -> impl Iterator<Item = &Part> {
        self.definitions.iter().map(|definition| &definition.part)
    }

    /// For each shape, what its part names.
    pub fn named(&self) -> Vec<Named> {
        self.parts().map(|part| part.named(self.kinds)).collect()
    }
}

impl Definition {
    /// A closed shape.
    pub fn closed(part: Part) -> Definition {
        Definition { open: false, part }
    }

    /// An open shape.
    pub fn open(part: Part) -> Definition {
        Definition { open: true, part }
    }

    /// For each label of so many kinds, whether the shape looks at its links: if the part names it, or if it is
    /// outgoing and the shape is closed. All other links are ignored.
    pub fn looked_at(&self, kinds: u16) -> Labelled<bool> {
        let mut looked_at = Labelled::new(kinds, false);
        for (label, far) in self.part.named(kinds).iter() {
            looked_at[label] = far.is_some() || (label.way == Way::Outgoing && !self.open);
        }
        looked_at
    }

    /// The words of this shape, without their count.
    pub fn words(&self) -> Vec<u16> {
        let mut words = Vec::new();
        if self.open {
            words.push(OPEN);
        }
        self.part.write(&mut words);
        words
    }
}

impl Part {
    /// A link part.
    pub fn link(label: Label, shape: Shape, low: u16, high: Option<u16>) -> Part {
        Part::Link(Link {
            label,
            shape,
            low,
            high,
        })
    }

    /// All of these parts, of which there are at most 256; groups of them where they are too many for one.
    pub fn all_of(parts: Vec<Part>) -> Part {
        let most = usize::from(MOST_GROUP);
        match &parts[..] {
            [] => Part::Nothing,
            [part] => part.clone(),
            _ if parts.len() <= most => Part::All(parts),
            _ => {
                let each = parts.len().div_ceil(most);
                Part::All(
                    parts
                        .chunks(each)
                        .map(|some| Part::all_of(some.to_vec()))
                        .collect(),
                )
            }
        }
    }

    /// The links in this part, left to right.
    pub fn links(&self) -> Vec<Link> {
        match self {
            Part::Nothing => Vec::new(),
            Part::Star(part) | Part::Plus(part) | Part::Optional(part) => part.links(),
            Part::Choice(parts) | Part::All(parts) => parts.iter().flat_map(Part::links).collect(),
            Part::Link(link) => vec![*link],
        }
    }

    /// What this part names, of the labels of so many kinds.
    pub fn named(&self, kinds: u16) -> Named {
        let mut named = Labelled::new(kinds, None);
        for link in self.links() {
            named[link.label] = Some(link.shape);
        }
        named
    }

    /// This part with each of its links changed.
    pub fn with_links(&self, change: &dyn Fn(Link) -> Link) -> Part {
        let inner = |part: &Part| Box::new(part.with_links(change));
        let each = |parts: &[Part]| parts.iter().map(|part| part.with_links(change)).collect();
        match self {
            Part::Nothing => Part::Nothing,
            Part::Star(part) => Part::Star(inner(part)),
            Part::Plus(part) => Part::Plus(inner(part)),
            Part::Optional(part) => Part::Optional(inner(part)),
            Part::Choice(parts) => Part::Choice(each(parts)),
            Part::All(parts) => Part::All(each(parts)),
            Part::Link(link) => Part::Link(change(*link)),
        }
    }

    /// How many parts lie within each other here, this one included.
    pub fn depth(&self) -> usize {
        match self {
            Part::Nothing | Part::Link(_) => 1,
            Part::Star(part) | Part::Plus(part) | Part::Optional(part) => 1 + part.depth(),
            Part::Choice(parts) | Part::All(parts) => 1 + parts.iter().map(Part::depth).max().unwrap_or(0),
        }
    }

    /// Appends the words of this part.
    pub fn write(&self, words: &mut Vec<u16>) {
        match self {
            Part::Nothing => words.push(NOTHING),
            Part::Star(part) => write_wrap(STAR, part, words),
            Part::Plus(part) => write_wrap(PLUS, part, words),
            Part::Optional(part) => write_wrap(OPTIONAL, part, words),
            Part::Choice(parts) => write_group(CHOICE, parts, words),
            Part::All(parts) => write_group(ALL, parts, words),
            Part::Link(link) => words.extend([
                code_of(link.label),
                link.shape.0,
                link.low,
                link.high.unwrap_or(NO_LIMIT),
            ]),
        }
    }

    /// The words of this part.
    pub fn words(&self) -> Vec<u16> {
        let mut words = Vec::new();
        self.write(&mut words);
        words
    }
}

fn write_wrap(code: u16, part: &Part, words: &mut Vec<u16>) {
    words.push(code);
    part.write(words);
}

fn write_group(code: u16, parts: &[Part], words: &mut Vec<u16>) {
    words.extend([code, parts.len() as u16]);
    for part in parts {
        part.write(words);
    }
}

/// The words of a template; the reverse of `read`.
pub fn write(template: &Template) -> Vec<u16> {
    let mut words = vec![template.kinds, template.shapes()];
    for definition in &template.definitions {
        let shape_words = definition.words();
        words.push(shape_words.len() as u16);
        words.extend(shape_words);
    }
    words
}

/// Reads a template, or tells the first fault.
pub fn read(words: &[u16]) -> Result<Template, Refusal> {
    if words.len() < 2 || words.len() > MOST_WORDS {
        return Err(Refusal::at(1, 0));
    }
    let (kinds, shapes) = (words[0], words[1]);
    if !(1..=MOST_KINDS).contains(&kinds) {
        return Err(Refusal::at(2, 0));
    }
    if !(1..=MOST_SHAPES).contains(&shapes) {
        return Err(Refusal::at(3, 1));
    }
    let mut reader = Reader {
        words,
        next: 2,
        end: 2,
        kinds,
        shapes,
        seen: Vec::new(),
    };
    let mut definitions = Vec::new();
    for _ in 0..shapes {
        definitions.push(reader.shape()?);
    }
    if reader.next < words.len() {
        return Err(Refusal::at(12, reader.next));
    }
    Ok(Template { kinds, definitions })
}

/// Where the reading stands.
struct Reader<'a> {
    words: &'a [u16],
    /// The place of the next word.
    next: usize,
    /// The end of the shape that is being read: no word of it stands here or later.
    end: usize,
    kinds: u16,
    shapes: u16,
    /// The labels that this shape has named so far.
    seen: Vec<Label>,
}

impl Reader<'_> {
    /// A shape: its count of words, then 18 if it is open, then one part that takes exactly the other words.
    fn shape(&mut self) -> Result<Definition, Refusal> {
        let length = self.words.len();
        let count = match self.words.get(self.next) {
            Some(count) => usize::from(*count),
            None => return Err(Refusal::at(4, length)),
        };
        self.next += 1;
        self.end = self.next + count;
        if self.end > length {
            return Err(Refusal::at(4, length));
        }
        self.seen.clear();
        let open = self.words[self.next..self.end].first() == Some(&OPEN);
        self.next += usize::from(open);
        let part = self.part(1)?;
        if self.next < self.end {
            return Err(Refusal::at(12, self.next));
        }
        Ok(Definition { open, part })
    }

    /// The next word of the shape; a word wanted past the shape's end is missing at that end.
    fn word(&mut self) -> Result<u16, Refusal> {
        if self.next >= self.end {
            return Err(Refusal::at(4, self.end));
        }
        let word = self.words[self.next];
        self.next += 1;
        Ok(word)
    }

    /// A part at this depth: its code, then what the code asks for.
    fn part(&mut self, depth: usize) -> Result<Part, Refusal> {
        let place = self.next;
        let code = self.word()?;
        if depth > MOST_DEPTH {
            return Err(Refusal::at(6, place));
        }
        if let Some(label) = label_of(code) {
            return Ok(Part::Link(self.link(place, label)?));
        }
        match code {
            0 => Ok(Part::Nothing),
            1 => Ok(Part::Star(Box::new(self.part(depth + 1)?))),
            2 => Ok(Part::Plus(Box::new(self.part(depth + 1)?))),
            3 => Ok(Part::Optional(Box::new(self.part(depth + 1)?))),
            16 => Ok(Part::Choice(self.group(depth + 1)?)),
            17 => Ok(Part::All(self.group(depth + 1)?)),
            18 => Err(Refusal::at(64, place)),
            _ => Err(Refusal::at(5, place)),
        }
    }

    /// A group's count, and its parts at this depth.
    fn group(&mut self, depth: usize) -> Result<Vec<Part>, Refusal> {
        let place = self.next;
        let count = self.word()?;
        if !(2..=MOST_GROUP).contains(&count) {
            return Err(Refusal::at(11, place));
        }
        (0..count).map(|_| self.part(depth)).collect()
    }

    /// A link's shape, low and high; `place` is that of its code.
    fn link(&mut self, place: usize, label: Label) -> Result<Link, Refusal> {
        let (shape, low, high) = (self.word()?, self.word()?, self.word()?);
        if label.kind.0 >= self.kinds {
            return Err(Refusal::at(7, place));
        }
        if self.seen.contains(&label) {
            return Err(Refusal::at(8, place));
        }
        if shape >= self.shapes {
            return Err(Refusal::at(9, place + 1));
        }
        let high_is_right = high == NO_LIMIT || (low..=MOST_COUNT).contains(&high);
        if low > MOST_COUNT || !high_is_right {
            return Err(Refusal::at(10, place + 2));
        }
        self.seen.push(label);
        let high = if high == NO_LIMIT { None } else { Some(high) };
        Ok(Link {
            label,
            shape: Shape(shape),
            low,
            high,
        })
    }
}
