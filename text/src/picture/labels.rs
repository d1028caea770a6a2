//! Labels that overlap neither each other nor the marks of the picture.

use super::marks::Marks;
use super::paper::{Rect, Spot};
use super::svg::Svg;

const FONT_SIZE: f64 = 11.0;
/// Of a character of a monospaced font.
const CHARACTER: f64 = 0.62 * FONT_SIZE;
const HEIGHT: f64 = 13.0;
/// From the middle of a line down to where its characters stand.
const BASELINE: f64 = 4.0;
/// Between two labels, so that their numbers do not read as one: a character across, and a little
/// up and down.
const ACROSS: f64 = CHARACTER;
const UP: f64 = 2.0;
/// Between the small rectangles that stand for a line.
const STEP: f64 = 4.0;

struct Label {
    text: String,
    rect: Rect,
    look: Look,
    /// Joins the label to what it names.
    leader: Option<(Spot, Spot)>,
}

#[derive(Clone, Copy)]
pub enum Look {
    Strong,
    Plain,
    Faint,
}

impl Look {
    fn attributes(self) -> &'static str {
        match self {
            Look::Strong => r#" font-weight="bold""#,
            Look::Plain => "",
            Look::Faint => r##" fill="#777""##,
        }
    }
}

/// Where a label may stand.
pub struct Place {
    rect: Rect,
    leader: Option<(Spot, Spot)>,
}

pub struct Labels {
    area: Rect,
    marks: Marks,
    labels: Vec<Label>,
}

pub fn width(text: &str) -> f64 {
    CHARACTER * text.chars().count() as f64
}

impl Labels {
    pub fn new(area: Rect) -> Self {
        Labels {
            area,
            marks: Marks::default(),
            labels: Vec::new(),
        }
    }

    /// No label shall stand on this mark.
    pub fn keep_free(&mut self, at: Spot, radius: f64) {
        self.marks
            .add(Rect::centred(at, 2.0 * radius, 2.0 * radius));
    }

    pub fn keep_line_free(&mut self, from: Spot, to: Spot, radius: f64) {
        for spot in steps(from, to) {
            self.keep_free(spot, radius);
        }
    }

    /// Puts the label in the first free place. False if none is free; then it is left out.
    pub fn put(&mut self, text: &str, look: Look, places: Vec<Place>) -> bool {
        let Some(place) = places.into_iter().find(|place| self.is_free(place)) else {
            return false;
        };
        if let Some((from, to)) = place.leader {
            self.keep_line_free(from, to, 1.0);
        }
        self.labels.push(Label {
            text: text.into(),
            rect: place.rect,
            look,
            leader: place.leader,
        });
        true
    }

    fn is_free(&self, place: &Place) -> bool {
        let crossed = |rect: &Rect| {
            place.leader.is_some_and(|(from, to)| {
                steps(from, to).any(|spot| rect.overlaps(&Rect::centred(spot, 2.0, 2.0)))
            })
        };
        let apart = place.rect.grown(ACROSS, UP);
        self.area.holds(&place.rect)
            && !self.marks.overlap(&place.rect)
            && !self
                .labels
                .iter()
                .any(|label| label.rect.overlaps(&apart) || crossed(&label.rect))
    }

    pub fn draw(&self, svg: &mut Svg) {
        svg.group(
            r##"class="leaders" stroke="#666" stroke-width="0.7""##,
            |svg| {
                for (from, to) in self.labels.iter().filter_map(|label| label.leader) {
                    svg.line(from, to, "");
                }
            },
        );
        // The white edge keeps a label readable on grid lines and boxes.
        let style = format!(
            r##"class="labels" font-size="{FONT_SIZE}" text-anchor="middle" stroke="#fff" stroke-width="3" stroke-linejoin="round" paint-order="stroke""##
        );
        svg.group(&style, |svg| {
            for label in &self.labels {
                let centre = label.rect.centre();
                let at = Spot::new(centre.x, centre.y + BASELINE);
                svg.text(at, &label.text, label.look.attributes());
            }
        });
    }
}

fn steps(from: Spot, to: Spot) -> impl Iterator<Item = Spot> {
    let count = (from.distance(to) / STEP).ceil().max(1.0) as u32;
    (0..=count).map(move |i| from.towards(to, f64::from(i) / f64::from(count)))
}

/// Beside a spot in this direction, so far that the label's edge keeps the gap.
pub fn beside(text: &str, spot: Spot, direction: Spot, gap: f64) -> Place {
    let (width, height) = (width(text), HEIGHT);
    let reach = (direction.x.abs() * width + direction.y.abs() * height) / 2.0 + gap;
    let rect = Rect::centred(spot.along(direction, reach), width, height);
    Place { rect, leader: None }
}

/// The same with a line from the spot over the gap.
pub fn led(text: &str, spot: Spot, direction: Spot, gap: f64) -> Place {
    let leader = Some((spot, spot.along(direction, gap)));
    Place {
        leader,
        ..beside(text, spot, direction, gap)
    }
}

/// The eight places around a spot, the easiest to read first.
pub fn around(text: &str, spot: Spot, gap: f64) -> Vec<Place> {
    let slant = 0.7;
    let directions = [
        (1.0, 0.0),
        (0.0, -1.0),
        (-1.0, 0.0),
        (0.0, 1.0),
        (slant, -slant),
        (-slant, -slant),
        (slant, slant),
        (-slant, slant),
    ];
    let place = |(x, y)| beside(text, spot, Spot::new(x, y), gap);
    directions.into_iter().map(place).collect()
}

#[cfg(test)]
mod tests {
    use super::*;

    const AREA: Rect = Rect::new(0.0, 0.0, 100.0, 100.0);
    const MIDDLE: Spot = Spot::new(50.0, 50.0);

    #[test]
    fn labels_are_left_out_once_no_place_is_free() {
        let mut labels = Labels::new(AREA);
        labels.keep_free(MIDDLE, 4.0);
        let put = (0..30).filter(|_| labels.put("12", Look::Plain, around("12", MIDDLE, 5.0)));
        let put = put.count();
        assert!((2..=8).contains(&put), "{put}");
        for (i, label) in labels.labels.iter().enumerate() {
            assert!(AREA.holds(&label.rect));
            assert!(!Rect::centred(MIDDLE, 8.0, 8.0).overlaps(&label.rect));
            let others = &labels.labels[..i];
            let apart = label.rect.grown(ACROSS, UP);
            assert!(!others.iter().any(|other| other.rect.overlaps(&apart)));
        }
    }

    #[test]
    fn no_label_stands_outside_or_on_a_line() {
        let mut labels = Labels::new(AREA);
        let east = Spot::new(1.0, 0.0);
        let place = |gap| vec![beside("1234567", MIDDLE, east, gap)];
        assert!(!labels.put("1234567", Look::Plain, place(10.0)));
        labels.keep_line_free(Spot::new(60.0, 0.0), Spot::new(60.0, 100.0), 1.0);
        assert!(!labels.put("1", Look::Plain, vec![beside("1", MIDDLE, east, 6.0)]));
        assert!(labels.put("1", Look::Plain, vec![beside("1", MIDDLE, east, 12.0)]));
    }

    #[test]
    fn a_leader_crosses_no_label() {
        let mut labels = Labels::new(AREA);
        let up = Spot::new(0.0, -1.0);
        assert!(labels.put("1", Look::Plain, vec![beside("1", MIDDLE, up, 5.0)]));
        assert!(!labels.put("2", Look::Plain, vec![led("2", MIDDLE, up, 25.0)]));
        assert!(labels.put("3", Look::Plain, vec![beside("3", MIDDLE, up, 25.0)]));
    }
}
