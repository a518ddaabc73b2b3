//! *Fit counts*: are these counts, one for each kind each way, those of a bag of a shape's part? The kinds at which the
//! shape doesn't look are ignored. Refusals: the template's, then 42, 41, 43.

pub mod bags;
pub mod intervals;
pub mod lines;
pub mod ready;

use crate::labels::Labelled;
use crate::numbers::Shape;
use crate::refusal::Refusal;
use crate::template::{self, Definition, MOST_COUNT};

/// The answer by intervals.
pub fn fit(template_words: &[u16], shape: u16, counts: &[u16]) -> Result<bool, Refusal> {
    fit_by(intervals::fits, template_words, shape, counts)
}

/// The answer by enumeration of bags; only for small counts.
pub fn fit_by_bags(template_words: &[u16], shape: u16, counts: &[u16]) -> Result<bool, Refusal> {
    fit_by(bags::fits, template_words, shape, counts)
}

/// The refusals, then the answer of one of the two methods.
fn fit_by(
    fits: fn(&Definition, &Labelled<u16>) -> bool,
    template_words: &[u16],
    shape: u16,
    counts: &[u16],
) -> Result<bool, Refusal> {
    let template = template::read(template_words)?;
    if shape >= template.shapes() {
        return Err(Refusal::at(42, 0));
    }
    if counts.len() != 2 * usize::from(template.kinds) {
        return Err(Refusal::at(41, 0));
    }
    if let Some(place) = counts.iter().position(|count| *count > MOST_COUNT) {
        return Err(Refusal::at(43, place));
    }
    let counts = Labelled::from(counts.to_vec());
    Ok(fits(template.definition(Shape(shape)), &counts))
}
