//! Texts cut into lines, or cut off, so that they fit a width.

use super::measure::width;

/// A text's letters: their height, and whether they are bold.
#[derive(Clone, Copy, PartialEq, Debug)]
pub struct Face {
    /// Their height.
    pub height: f64,
    /// Whether they are bold.
    pub bold: bool,
}

impl Face {
    /// The width of a text in these letters.
    pub fn width(&self, text: &str) -> f64 {
        width(text, self.height, self.bold)
    }
}

/// The text, or its start and an ellipsis if it is wider than the room.
pub fn cut_off(text: &str, room: f64, face: Face) -> String {
    if face.width(text) <= room {
        return text.to_string();
    }
    let mut kept = String::new();
    for letter in text.chars() {
        if face.width(&kept) + face.width(&format!("{letter}…")) > room {
            break;
        }
        kept.push(letter);
    }
    kept.trim_end().to_string() + "…"
}

/// The lines of a text, cut between words where that can be. Beyond `most` lines it is cut off.
pub fn wrap(text: &str, room: f64, face: Face, most: usize) -> Vec<String> {
    let mut lines: Vec<String> = Vec::new();
    let mut line = String::new();
    // A space that doesn't break stays within its word.
    let words = text.split([' ', '\t']).filter(|word| !word.is_empty());
    for word in words.flat_map(|word| pieces(word, room, face)) {
        let longer = if line.is_empty() {
            word.clone()
        } else {
            format!("{line} {word}")
        };
        if line.is_empty() || face.width(&longer) <= room {
            line = longer;
        } else {
            lines.push(std::mem::replace(&mut line, word));
        }
    }
    lines.push(line);
    if lines.len() > most {
        let rest = lines.split_off(most - 1).join(" ");
        lines.push(cut_off(&rest, room, face));
    }
    lines
}

/// A word in pieces that fit the room each; most words are one piece.
fn pieces(word: &str, room: f64, face: Face) -> Vec<String> {
    let mut pieces = vec![String::new()];
    for letter in word.chars() {
        let last = pieces.last().map_or("", String::as_str);
        if !last.is_empty() && face.width(last) + face.width(&letter.to_string()) > room {
            pieces.push(String::new());
        }
        if let Some(last) = pieces.last_mut() {
            last.push(letter);
        }
    }
    pieces
}
