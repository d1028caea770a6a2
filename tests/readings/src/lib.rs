//! The proved rounding of a receiver's reading (crates/reading_probe) beside the second program's.

use binding::reading_probe::NOT_FINITE;
pub use binding::reading_probe::probe_coordinate;
use reference::grid::HALF_WIDTH;
use reference::reading::Reading;

/// Differences that are kept; all are counted.
const KEPT: usize = 20;

/// What the probe says of a pattern, by the second program: the coordinate counted from the grid's
/// south-west corner, 0 to 24,000 on the grid and 44,767 off it, 65,536 where the reading is not finite.
pub fn second(pattern: u32) -> u32 {
    let counted = |coordinate: i64| u32::try_from(coordinate + HALF_WIDTH).expect("not below 0");
    Reading(pattern).coordinate().map_or(NOT_FINITE, counted)
}

/// Patterns that were compared.
#[derive(Clone, Debug, Default, PartialEq, Eq)]
pub struct Compared {
    pub patterns: u64,
    pub differ: u64,
    /// The first of those that differ.
    pub first: Vec<u32>,
}

impl Compared {
    pub fn compare(&mut self, pattern: u32) {
        self.compare_by(pattern, probe_coordinate);
    }

    /// With any other rounding for the proved one.
    pub fn compare_by(&mut self, pattern: u32, rounding: impl Fn(u32) -> u32) {
        self.patterns += 1;
        if rounding(pattern) != second(pattern) {
            self.differ += 1;
            if self.first.len() < KEPT {
                self.first.push(pattern);
            }
        }
    }

    pub fn add(&mut self, other: &Compared) {
        self.patterns += other.patterns;
        self.differ += other.differ;
        self.first.extend(&other.first);
        self.first.truncate(KEPT);
    }
}
