//! Which part of the grid the plot shows, at one scale for both axes.

use super::paper::{Rect, Spot};
use crate::grid::{HALF_WIDTH, Position};

/// At least so many steps are shown each way.
const FEWEST_STEPS: f64 = 4.0;
/// Pixels that the plot may reach past the grid where it could show the grid instead.
const PAST_GRID: f64 = 100.0;

pub struct View {
    pub plot: Rect,
    /// Easting and northing of the plot's middle.
    middle: (f64, f64),
    /// Pixels a step.
    pub scale: f64,
}

impl View {
    /// Shows the positions with this part of their extent as a margin on every side.
    pub fn fit(positions: &[Position], margin: f64, plot: Rect) -> Self {
        let (west, east) = extent(positions.iter().map(|at| at.east));
        let (south, north) = extent(positions.iter().map(|at| at.north));
        let steps = |low: f64, high: f64| ((high - low) * (1.0 + 2.0 * margin)).max(FEWEST_STEPS);
        let across = plot.width() / steps(west, east);
        let up = plot.height() / steps(south, north);
        let scale = across.min(up);
        let middle = |low: f64, high: f64, pixels: f64| {
            let most = f64::from(HALF_WIDTH) + (PAST_GRID - pixels / 2.0) / scale;
            ((low + high) / 2.0).clamp(-most.max(0.0), most.max(0.0))
        };
        View {
            plot,
            middle: (
                middle(west, east, plot.width()),
                middle(south, north, plot.height()),
            ),
            scale,
        }
    }

    pub fn spot(&self, east: f64, north: f64) -> Spot {
        let centre = self.plot.centre();
        Spot::new(
            centre.x + (east - self.middle.0) * self.scale,
            centre.y - (north - self.middle.1) * self.scale,
        )
    }

    pub fn at(&self, position: Position) -> Spot {
        self.spot(position.east.into(), position.north.into())
    }

    /// Whether a mark of this radius there is in the plot.
    pub fn shows(&self, position: Position, radius: f64) -> bool {
        let mark = Rect::centred(self.at(position), 2.0 * radius, 2.0 * radius);
        self.plot.holds(&mark)
    }

    /// On paper the rectangle between two corners, south-west and north-east.
    pub fn rect(&self, low: Position, high: Position) -> Rect {
        let (low, high) = (self.at(low), self.at(high));
        Rect::new(low.x, high.y, high.x, low.y)
    }

    /// The least and the greatest easting shown.
    pub fn eastings(&self) -> (f64, f64) {
        let half = self.plot.width() / 2.0 / self.scale;
        (self.middle.0 - half, self.middle.0 + half)
    }

    pub fn northings(&self) -> (f64, f64) {
        let half = self.plot.height() / 2.0 / self.scale;
        (self.middle.1 - half, self.middle.1 + half)
    }
}

/// The least and the greatest; 0 where there is none.
fn extent(coordinates: impl Iterator<Item = i16> + Clone) -> (f64, f64) {
    let least = coordinates.clone().min().unwrap_or(0);
    let greatest = coordinates.max().unwrap_or(0);
    (least.into(), greatest.into())
}
