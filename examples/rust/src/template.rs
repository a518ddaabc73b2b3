//! Templates: read from words, or built from parts.

use crate::part::word;
use crate::refusal::refused;
use crate::{raw, Kind, Part, Refusal, Shape};
use std::sync::Arc;

/// A template that was read: shapes, and the links that a card of each must have. A clone shares the words.
#[derive(Clone, Debug, PartialEq, Eq)]
pub struct Template {
    words: Arc<[u16]>,
    kinds: u16,
    shapes: u16,
}

impl Template {
    /// Reads a template's words, or tells the first fault: refusals 1 to 12 and 64.
    pub fn read(words: Vec<u16>) -> Result<Template, Refusal> {
        let answer = raw::read_template(&words);
        refused(answer.number, answer.place)?;
        Ok(Template { words: words.into(), kinds: answer.kinds, shapes: answer.shapes })
    }

    /// How many kinds of links there are.
    pub fn kinds(&self) -> u16 {
        self.kinds
    }

    /// How many shapes there are.
    pub fn shapes(&self) -> u16 {
        self.shapes
    }

    /// The words that were read.
    pub fn words(&self) -> &[u16] {
        &self.words
    }

    /// Whether counts of links fit a shape: for each kind those that start at a card, then for each kind those that
    /// arrive there. A kind that the shape does not name has to count 0 as outgoing if the shape is closed, and is
    /// ignored otherwise. Refusals: 42, 41 if there are not two counts for each kind, 43.
    pub fn fits(&self, shape: Shape, counts: &[u16]) -> Result<bool, Refusal> {
        let answer = raw::fit_counts(&self.words, shape.0, counts);
        refused(answer.number, answer.place)?;
        Ok(answer.fits == 1)
    }
}

/// The word before the part of an open shape.
const OPEN: u16 = 18;

/// A template that is being built: kinds and shapes first, so that parts can name them, then what each shape is.
#[derive(Clone, Debug, Default)]
pub struct TemplateBuilder {
    kinds: usize,
    /// The part of each shape, and whether the shape is open.
    shapes: Vec<(Part, bool)>,
}

impl TemplateBuilder {
    /// No kinds and no shapes.
    pub fn new() -> TemplateBuilder {
        TemplateBuilder::default()
    }

    /// Adds a kind and returns its number.
    pub fn kind(&mut self) -> Kind {
        self.kinds += 1;
        Kind(word(self.kinds - 1))
    }

    /// Adds a shape and returns its number. No link starts at its cards until it is defined.
    pub fn shape(&mut self) -> Shape {
        self.shapes.push((Part::Nothing, false));
        Shape(word(self.shapes.len() - 1))
    }

    /// Says what a closed shape is: only links that the part names start at its cards.
    ///
    /// # Panics
    ///
    /// If `shape` gave no such number.
    pub fn define(&mut self, shape: Shape, part: Part) {
        self.shapes[usize::from(shape.0)] = (part, false);
    }

    /// Says what an open shape is: links that start at its cards and that the part does not name are ignored.
    ///
    /// # Panics
    ///
    /// If `shape` gave no such number.
    pub fn define_open(&mut self, shape: Shape, part: Part) {
        self.shapes[usize::from(shape.0)] = (part, true);
    }

    /// The template's words.
    pub fn words(&self) -> Vec<u16> {
        let mut words = vec![word(self.kinds), word(self.shapes.len())];
        for (part, open) in &self.shapes {
            let count = words.len();
            words.push(0);
            words.extend(open.then_some(OPEN));
            part.write(&mut words);
            words[count] = word(words.len() - count - 1);
        }
        words
    }

    /// The template, or its first fault.
    pub fn read(&self) -> Result<Template, Refusal> {
        Template::read(self.words())
    }
}
