//! Writes shapes and texts of a drawing.

use super::layout::Rect;
use super::measure::width;
use std::fmt::Write;

/// The width of a letter of a fixed-width face, as a part of its height.
pub const MONOSPACE: f64 = 0.61;

/// The text of a drawing that is being written.
#[derive(Clone, Debug)]
pub struct Svg {
    /// What is written so far.
    pub out: String,
    /// Where texts stand on the page.
    pub texts: Vec<Words>,
    /// Where the origin lies on the page, and the scale.
    origin: (f64, f64, f64),
}

impl Default for Svg {
    fn default() -> Svg {
        Svg {
            out: String::new(),
            texts: Vec::new(),
            origin: (0.0, 0.0, 1.0),
        }
    }
}

/// A text and the place that it takes on the page.
#[derive(Clone, PartialEq, Debug)]
pub struct Words {
    /// The text.
    pub text: String,
    /// Its place.
    pub place: Rect,
}

/// Which point of a text its place names.
#[derive(Clone, Copy, PartialEq, Eq, Debug)]
pub enum Anchor {
    /// Its start.
    Start,
    /// Its middle.
    Middle,
    /// Its end.
    End,
}

impl Svg {
    /// Adds a line as it is.
    pub fn raw(&mut self, line: &str) {
        self.out.push_str(line);
        self.out.push('\n');
    }

    /// Opens a group with an origin and a scale of its own.
    pub fn open(&mut self, (x, y): (f64, f64), scale: f64) {
        let (left, top) = (short(x), short(y));
        self.raw(&format!(
            "<g transform=\"translate({left} {top}) scale({scale:.4})\">"
        ));
        self.origin = (x, y, scale);
    }

    /// Closes the group.
    pub fn close(&mut self) {
        self.raw("</g>");
        self.origin = (0.0, 0.0, 1.0);
    }

    /// A rectangle with round corners.
    pub fn rect(&mut self, (x, y): (f64, f64), (width, height): (f64, f64), radius: f64, attributes: &str) {
        let _ = writeln!(
            self.out,
            "<rect x=\"{}\" y=\"{}\" width=\"{}\" height=\"{}\" rx=\"{}\" {attributes}/>",
            short(x),
            short(y),
            short(width),
            short(height),
            short(radius)
        );
    }

    /// A circle.
    pub fn circle(&mut self, (x, y): (f64, f64), radius: f64, attributes: &str) {
        let _ = writeln!(
            self.out,
            "<circle cx=\"{}\" cy=\"{}\" r=\"{}\" {attributes}/>",
            short(x),
            short(y),
            short(radius)
        );
    }

    /// A path.
    pub fn path(&mut self, data: &str, attributes: &str) {
        let _ = writeln!(self.out, "<path d=\"{data}\" {attributes}/>");
    }

    /// A text whose letters have this height; `y` is the middle of its small letters.
    pub fn text(&mut self, (x, y): (f64, f64), height: f64, anchor: Anchor, attributes: &str, text: &str) {
        self.halo((x, y), height, anchor, attributes, text);
        let letters = if attributes.contains("monospace") {
            text.chars().count() as f64 * height * MONOSPACE
        } else {
            width(text, height, attributes.contains("bold"))
        };
        let left = match anchor {
            Anchor::Start => x,
            Anchor::Middle => x - letters / 2.0,
            Anchor::End => x - letters,
        };
        let (origin_x, origin_y, scale) = self.origin;
        let place = Rect {
            x: origin_x + left * scale,
            y: origin_y + (y - 0.4 * height) * scale,
            width: letters * scale,
            height: 0.9 * height * scale,
        };
        let text = text.to_string();
        self.texts.push(Words { text, place });
    }

    /// What lies around a text that follows: the same, but not counted as a text.
    pub fn halo(&mut self, (x, y): (f64, f64), height: f64, anchor: Anchor, attributes: &str, text: &str) {
        let anchor = match anchor {
            Anchor::Start => "",
            Anchor::Middle => " text-anchor=\"middle\"",
            Anchor::End => " text-anchor=\"end\"",
        };
        let _ = writeln!(
            self.out,
            "<text x=\"{}\" y=\"{}\" font-size=\"{}\"{anchor} {attributes}>{}</text>",
            short(x),
            short(y + 0.35 * height),
            short(height),
            escape(text)
        );
    }
}

/// A length with at most two digits after the point.
pub fn short(length: f64) -> String {
    let text = format!("{length:.2}");
    let text = text.trim_end_matches('0').trim_end_matches('.');
    if text == "-0" {
        "0".to_string()
    } else {
        text.to_string()
    }
}

/// A text in which no sign has a meaning of its own.
pub fn escape(text: &str) -> String {
    let text = text.replace('&', "&amp;").replace('<', "&lt;");
    text.replace('>', "&gt;").replace('"', "&quot;")
}

/// A way with round corners.
pub fn round_path(points: &[(f64, f64)], radius: f64) -> String {
    let mut data = String::new();
    for (number, point) in points.iter().enumerate() {
        let (before, after) = match (number.checked_sub(1), points.get(number + 1)) {
            (Some(before), Some(after)) => (points[before], *after),
            (None, _) => {
                let _ = write!(data, "M{} {}", short(point.0), short(point.1));
                continue;
            }
            (_, None) => {
                let _ = write!(data, "L{} {}", short(point.0), short(point.1));
                continue;
            }
        };
        let reach = radius
            .min(distance(before, *point) / 2.0)
            .min(distance(*point, after) / 2.0);
        let (start, end) = (towards(*point, before, reach), towards(*point, after, reach));
        let _ = write!(
            data,
            "L{} {}Q{} {} {} {}",
            short(start.0),
            short(start.1),
            short(point.0),
            short(point.1),
            short(end.0),
            short(end.1)
        );
    }
    data
}

fn distance(one: (f64, f64), two: (f64, f64)) -> f64 {
    (one.0 - two.0).hypot(one.1 - two.1)
}

/// The point this far from one point towards another.
pub fn towards(from: (f64, f64), to: (f64, f64), reach: f64) -> (f64, f64) {
    let whole = distance(from, to).max(1e-9);
    (
        from.0 + (to.0 - from.0) * reach / whole,
        from.1 + (to.1 - from.1) * reach / whole,
    )
}

/// The head of an arrow at the end of a way.
pub fn head(points: &[(f64, f64)], length: f64) -> String {
    let [.., before, tip] = points[..] else {
        return String::new();
    };
    let base = towards(tip, before, length);
    let (dx, dy) = ((tip.0 - base.0) * 0.42, (tip.1 - base.1) * 0.42);
    format!(
        "M{} {}L{} {}L{} {}Z",
        short(tip.0),
        short(tip.1),
        short(base.0 - dy),
        short(base.1 + dx),
        short(base.0 + dy),
        short(base.1 - dx)
    )
}
