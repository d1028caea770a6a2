//! How far a position is from a box (document 02, C-16): MINDIST of Roussopoulos, Kelley and
//! Vincent, "Nearest Neighbor Queries", 1995.

use crate::grid::Position;
use std::ops::Sub;

/// A box from its south-west to its north-east corner, edges included.
#[derive(Clone, Copy, Debug)]
pub struct Area {
    pub low: Position,
    pub high: Position,
}

/// How far x is from what lies from `low` to `high`.
pub fn outside<T: PartialOrd + Sub<Output = T> + Default>(low: T, high: T, x: T) -> T {
    if x < low {
        low - x // below the box
    } else if x > high {
        x - high // above it
    } else {
        T::default() // within it: 0
    }
}

/// What from `low` to `high` is nearest to x.
fn nearest(low: i64, high: i64, x: i64) -> i64 {
    if x < low {
        low // below the box
    } else if x > high {
        high // above it
    } else {
        x // within it
    }
}

impl Area {
    pub fn squared_distance(self, q: Position) -> i64 {
        let across = outside(self.low.east, self.high.east, q.east);
        let up = outside(self.low.north, self.high.north, q.north);
        across * across + up * up
    }

    /// The position in the box that is exactly so far from q.
    pub fn nearest(self, q: Position) -> Position {
        Position::new(
            nearest(self.low.east, self.high.east, q.east),
            nearest(self.low.north, self.high.north, q.north),
        )
    }
}
