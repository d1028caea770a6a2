//! The boxes of the tree, as far as the plot shows them.

use super::legend::{Key, Legend};
use super::paper::{Rect, Spot};
use super::svg::Svg;
use super::view::View;
use crate::table::Area;

/// From the root down; there are at most five depths above the leaves.
const EDGES: [&str; 5] = [
    r##" stroke="#333" stroke-width="1.6""##,
    r##" stroke="#555" stroke-width="1.3" stroke-dasharray="8 3""##,
    r##" stroke="#6b6b6b" stroke-width="1.1" stroke-dasharray="4 2""##,
    r##" stroke="#7d7d7d" stroke-width="0.9" stroke-dasharray="2 2""##,
    r##" stroke="#8c8c8c" stroke-width="0.8" stroke-dasharray="1 2""##,
];

pub fn draw(areas: &[Area], view: &View, svg: &mut Svg, legend: &mut Legend) {
    if areas.is_empty() {
        legend.note("The tree has no boxes: its root is a leaf, or it is empty.");
    }
    for (depth, attributes) in EDGES.iter().enumerate() {
        let here: Vec<&Area> = areas.iter().filter(|area| area.depth == depth).collect();
        if here.is_empty() {
            continue;
        }
        svg.group(&format!(r#"class="boxes"{attributes}"#), |svg| {
            for area in &here {
                let rect = view.rect(area.low, area.high);
                edges(&rect, &view.plot, svg);
            }
        });
        let words = format!(
            "tree boxes, level {} from the root: {}",
            depth + 1,
            here.len()
        );
        legend.key(Key::Edge(attributes), words);
    }
}

/// Of each edge what lies in the plot: a box that reaches past it stays open there.
fn edges(rect: &Rect, plot: &Rect, svg: &mut Svg) {
    let Rect {
        left,
        top,
        right,
        bottom,
    } = *rect;
    let edges = [
        Rect::new(left, top, right, top),
        Rect::new(left, bottom, right, bottom),
        Rect::new(left, top, left, bottom),
        Rect::new(right, top, right, bottom),
    ];
    for shown in edges.iter().filter_map(|edge| edge.common(plot)) {
        let from = Spot::new(shown.left, shown.top);
        svg.line(from, Spot::new(shown.right, shown.bottom), "");
    }
}
