//! The picture: arrows, labels and cards.

use super::cards::{card, CardMark, PAPER};
use super::graph::Arrow;
use super::layout::{Block, Layout, Route};
use super::measure::{Mark, LABEL};
use super::strokes::{colour, stroke};
use super::svg::{head, round_path, towards, Anchor, Svg};

/// The broad line that shows how a desk's booking asks for its unmet pair.
pub const BLAME: &str = "stroke=\"#c01f1f\" stroke-width=\"3.4\" fill=\"none\" opacity=\"0.22\"";

/// Draws the arrows, the labels and the cards. The links in `blamed` are those from a
/// desk's booking to its unmet pair.
pub fn picture(svg: &mut Svg, layout: &Layout, blamed: &[Arrow]) {
    let nets = layout
        .routes
        .chunk_by(|one, two| (one.arrow.from, one.arrow.kind) == (two.arrow.from, two.arrow.kind));
    for net in nets {
        arrows(svg, net);
    }
    for route in layout
        .routes
        .iter()
        .filter(|route| is_blamed(layout, route, blamed))
    {
        svg.path(&round_path(&route.points, 1.8), BLAME);
    }
    for block in &layout.blocks {
        card(svg, block, mark(block));
    }
    for label in &layout.labels {
        let anchor = if label.ends { Anchor::End } else { Anchor::Start };
        let common = "font-weight=\"bold\" font-style=\"italic\"";
        let halo = format!(
            "{common} fill=\"none\" stroke=\"{PAPER}\" stroke-width=\"1.5\" stroke-linejoin=\"round\""
        );
        svg.halo((label.x, label.y), LABEL, anchor, &halo, &label.text);
        let fill = format!("{common} fill=\"{}\"", colour(label.kind));
        svg.text((label.x, label.y), LABEL, anchor, &fill, &label.text);
    }
}

/// The arrows of one net, over a line in the page's colour that parts them from others.
fn arrows(svg: &mut Svg, net: &[Route]) {
    let shown: Vec<Vec<(f64, f64)>> = net.iter().map(|route| shortened(&route.points)).collect();
    for points in &shown {
        svg.path(
            &round_path(points, 1.8),
            &format!("stroke=\"{PAPER}\" stroke-width=\"1.5\" fill=\"none\""),
        );
    }
    for (points, route) in shown.iter().zip(net) {
        let kind = route.arrow.kind;
        svg.path(
            &round_path(points, 1.8),
            &format!("{} stroke-width=\"0.5\" fill=\"none\"", stroke(kind)),
        );
        svg.path(&head(&route.points, 2.5), &format!("fill=\"{}\"", colour(kind)));
    }
}

/// How a card as a whole is marked.
fn mark(block: &Block) -> CardMark {
    let has = |mark: Mark| block.chips.iter().any(|(chip, _)| chip.mark == mark);
    CardMark {
        bare: has(Mark::None),
        blank: block.blank,
        not_met: has(Mark::NotMet),
        needed: has(Mark::Smallest),
    }
}

/// A way that ends where the arrow's head begins.
pub fn shortened(points: &[(f64, f64)]) -> Vec<(f64, f64)> {
    let mut points = points.to_vec();
    if let [.., before, last] = points[..] {
        let end = points.len() - 1;
        points[end] = towards(last, before, 1.6);
    }
    points
}

/// Whether a route leads from a desk's booking to its unmet pair.
fn is_blamed(layout: &Layout, route: &Route, blamed: &[Arrow]) -> bool {
    blamed.contains(&Arrow {
        from: layout.blocks[route.arrow.from].card,
        kind: route.arrow.kind,
        to: layout.blocks[route.arrow.to].card,
    })
}
