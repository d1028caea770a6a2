//! The legend under the plot: keys in two columns, then notes.

use super::paper::{Rect, Spot};
use super::svg::Svg;

const ROW: f64 = 20.0;
const LEFT: f64 = 24.0;
const COLUMN: f64 = 384.0;
const SYMBOL: f64 = 26.0;
const BASELINE: f64 = 4.0;

/// What stands before a key's words.
pub enum Key {
    Stretch(&'static str),
    Site(&'static str, f64),
    Breakpoint,
    Start,
    Corner,
    End,
    Ground(&'static str),
    /// The attributes of a box's edges.
    Edge(&'static str),
}

#[derive(Default)]
pub struct Legend {
    keys: Vec<(Key, String)>,
    notes: Vec<String>,
}

impl Legend {
    pub fn key(&mut self, key: Key, words: impl Into<String>) {
        self.keys.push((key, words.into()));
    }

    pub fn note(&mut self, words: impl Into<String>) {
        self.notes.push(words.into());
    }

    /// Returns where it ends.
    pub fn draw(&self, top: f64, svg: &mut Svg) -> f64 {
        let rows = self.keys.len().div_ceil(2);
        svg.group(r#"class="legend""#, |svg| {
            for (i, (key, words)) in self.keys.iter().enumerate() {
                // Down the first column, then the second.
                let (column, row) = (i / rows, i % rows);
                let at = Spot::new(
                    LEFT + COLUMN * column as f64,
                    top + ROW * (row as f64 + 0.5),
                );
                symbol(key, at, svg);
                svg.text(Spot::new(at.x + SYMBOL, at.y + BASELINE), words, "");
            }
        });
        let under = top + ROW * rows as f64 + 4.0;
        svg.group(r##"class="notes" fill="#555""##, |svg| {
            for (i, note) in self.notes.iter().enumerate() {
                let y = under + ROW * (i as f64 + 0.5) + BASELINE;
                svg.text(Spot::new(LEFT, y), note, "");
            }
        });
        under + ROW * self.notes.len() as f64 + 8.0
    }
}

/// In the 18 pixels right of a spot.
fn symbol(key: &Key, at: Spot, svg: &mut Svg) {
    let middle = Spot::new(at.x + 9.0, at.y);
    let end = Spot::new(at.x + 18.0, at.y);
    match key {
        Key::Stretch(colour) => {
            svg.line(at, end, &format!(r#" stroke="{colour}" stroke-width="6""#));
        }
        Key::Site(colour, radius) => dot(middle, *radius, colour, svg),
        Key::Breakpoint => {
            let (top, foot) = (
                Spot::new(middle.x, at.y - 7.0),
                Spot::new(middle.x, at.y + 7.0),
            );
            svg.line(top, foot, r##" stroke="#222" stroke-width="1.2""##);
        }
        Key::Start => start(middle, svg),
        Key::Corner => corner(middle, svg),
        Key::End => self::end(middle, svg),
        Key::Ground(colour) => {
            let patch = Rect::centred(middle, 18.0, 12.0);
            svg.rect(&patch, &format!(r##" fill="{colour}" stroke="#888""##));
        }
        Key::Edge(attributes) => svg.line(at, end, attributes),
    }
}

/// The mark of a site; a small one has an edge that leaves its colour visible.
pub fn dot(at: Spot, radius: f64, colour: &str, svg: &mut Svg) {
    let edge = radius * 0.16;
    let attributes = format!(r##" fill="{colour}" stroke="#222" stroke-width="{edge:.2}""##);
    svg.circle(at, radius, &attributes);
}

/// A ring, so that a site that stands there stays visible.
pub fn start(at: Spot, svg: &mut Svg) {
    svg.circle(
        at,
        6.5,
        r##" fill="none" stroke="#222" stroke-width="1.4""##,
    );
}

/// Between the first and the last.
pub fn corner(at: Spot, svg: &mut Svg) {
    let spot = |x, y| Spot::new(at.x + x, at.y + y);
    let diamond = [
        spot(0.0, -7.5),
        spot(7.5, 0.0),
        spot(0.0, 7.5),
        spot(-7.5, 0.0),
    ];
    svg.polygon(
        &diamond,
        r##" fill="none" stroke="#222" stroke-width="1.4""##,
    );
}

pub fn end(at: Spot, svg: &mut Svg) {
    let square = Rect::centred(at, 13.0, 13.0);
    svg.rect(
        &square,
        r##" fill="none" stroke="#222" stroke-width="1.4""##,
    );
}
