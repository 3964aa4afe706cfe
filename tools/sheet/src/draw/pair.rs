//! Two drawings beside each other, in which the decisions that differ are marked.

use super::svg::Svg;
use super::{About, draw};

/// The frame of a decision that differs, around a car and around a chosen cell.
pub const STYLE: &str = ".differs{fill:none;stroke:#c2008f;stroke-width:2;pointer-events:none}";
pub const DIFFERS: &str = "its decision differs in the other sheet";

/// Between the two drawings.
const GAP: f64 = 16.0;

/// The drawings of two sheets, the first to the left.
pub fn pair(first: (&[u8], &About), second: (&[u8], &About)) -> String {
    let mut svg = Svg::default();
    let (width, height) = svg.part(&draw(first.0, first.1), 0.0, 0.0);
    let right = width + GAP;
    let (other_width, other_height) = svg.part(&draw(second.0, second.1), right, 0.0);
    let bottom = height.max(other_height);
    svg.line(
        "floor",
        (width + GAP / 2.0, 8.0),
        (width + GAP / 2.0, bottom - 8.0),
    );
    svg.view("first", [0.0, 0.0, width, height]);
    svg.view("second", [right, 0.0, other_width, other_height]);
    svg.finish(right + other_width, bottom)
}

/// A frame around something that stands at a left upper corner.
pub fn mark(svg: &mut Svg, (x, y): (f64, f64), (width, height): (f64, f64)) {
    svg.rect("differs", x - 2.5, y - 2.5, width + 5.0, height + 5.0);
}
