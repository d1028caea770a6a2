//! The marks that no label shall stand on, in cells of the paper: a long tour has very many.

use super::paper::Rect;
use std::collections::HashMap;

/// Pixels across and up.
const CELL: f64 = 16.0;

#[derive(Default)]
pub struct Marks(HashMap<(i32, i32), Vec<Rect>>);

impl Marks {
    pub fn add(&mut self, mark: Rect) {
        for cell in cells(&mark) {
            self.0.entry(cell).or_default().push(mark);
        }
    }

    /// Whether one of them overlaps it.
    pub fn overlap(&self, rect: &Rect) -> bool {
        let near = cells(rect).filter_map(|cell| self.0.get(&cell));
        near.flatten().any(|mark| mark.overlaps(rect))
    }
}

/// Those that have a part of the rectangle.
fn cells(rect: &Rect) -> impl Iterator<Item = (i32, i32)> {
    let cell = |pixels: f64| (pixels / CELL).floor() as i32;
    let (left, right) = (cell(rect.left), cell(rect.right));
    let (top, bottom) = (cell(rect.top), cell(rect.bottom));
    (left..=right).flat_map(move |x| (top..=bottom).map(move |y| (x, y)))
}

#[cfg(test)]
mod tests {
    use super::*;
    use crate::picture::paper::Spot;

    /// As many small marks and wide labels as there are places, some of them outside the paper.
    #[test]
    fn what_overlaps_is_found_whatever_its_cells() {
        let marks: Vec<Rect> = (0..40)
            .map(|i| {
                Rect::centred(
                    Spot::new(f64::from(i * 37 % 101) - 9.0, f64::from(i * 13)),
                    6.0,
                    6.0,
                )
            })
            .collect();
        let mut found = Marks::default();
        marks.iter().for_each(|mark| found.add(*mark));
        let mut overlapped = 0;
        for i in 0..600 {
            let at = Spot::new(f64::from(i * 31 % 127) - 15.5, f64::from(i) - 20.0);
            let rect = Rect::centred(at, 30.0, 13.0);
            let expected = marks.iter().any(|mark| mark.overlaps(&rect));
            assert_eq!(found.overlap(&rect), expected);
            overlapped += usize::from(expected);
        }
        assert!((100..500).contains(&overlapped), "{overlapped}");
    }
}
