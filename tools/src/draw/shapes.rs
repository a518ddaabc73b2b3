//! The shapes of a template as lines of text.

use crate::text::check::Sheet;
use crate::text::write::part_in;

/// The most signs of a shape's name that the lines below it stand in by.
const LONGEST_NAME: usize = 30;

/// What a shape is called in a drawing: its name, and `…` behind it if it is open.
pub fn shape_title(sheet: &Sheet, shape: usize) -> String {
    let end = if is_open(sheet, shape) { "…" } else { "" };
    format!("{}{end}", sheet.text.shape_name(shape))
}

/// Whether a shape is open.
pub fn is_open(sheet: &Sheet, shape: usize) -> bool {
    sheet.setting.template.definitions[shape].open
}

/// These shapes as text, cut into lines of at most so many signs.
pub fn shape_lines(sheet: &Sheet, which: &[usize], signs: usize) -> Vec<String> {
    let titles: Vec<String> = which.iter().map(|shape| shape_title(sheet, *shape)).collect();
    let longest = titles.iter().map(|title| title.chars().count()).max();
    let longest = longest.unwrap_or(0).min(LONGEST_NAME);
    let mut lines = Vec::new();
    for (shape, title) in which.iter().zip(titles) {
        let part = part_in(&sheet.text, &sheet.setting.template.definitions[*shape].part);
        let mut line = format!("{title:longest$} = ");
        for piece in part
            .split_inclusive(' ')
            .flat_map(|piece| chunks(piece, signs / 2))
        {
            if line.chars().count() + piece.trim_end().chars().count() > signs {
                lines.push(line.trim_end().to_string());
                line = " ".repeat(longest + 3);
            }
            line += &piece;
        }
        lines.push(line.trim_end().to_string());
    }
    let cut = |line: String| chunks(&line, signs);
    lines.into_iter().flat_map(cut).collect()
}

/// A text in pieces of at most so many signs.
fn chunks(text: &str, signs: usize) -> Vec<String> {
    let letters: Vec<char> = text.chars().collect();
    letters
        .chunks(signs)
        .map(|piece| piece.iter().collect())
        .collect()
}
