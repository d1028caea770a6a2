//! Positions, sites and legs of document 01 ("Grid and sites"), and each of its limits once, as
//! the requests of document 02 that have landed changed them.

/// Coordinates run from `-HALF_WIDTH` to `HALF_WIDTH`. Document 02, C-12.
pub const HALF_WIDTH: i64 = 12_000;
pub const MOST_SITES: usize = 512;
pub const TABLE_LEN: usize = 32_768;
/// Document 02, C-21.
pub const WORK_LEN: usize = 2_048;
/// Lengths that a work buffer must not have; that of document 01, before C-21, is the last but one.
pub const WRONG_WORK: [usize; 8] = [
    0,
    1,
    WORK_LEN / 2,
    WORK_LEN - 1,
    WORK_LEN + 1,
    2 * WORK_LEN,
    4 * WORK_LEN,
    TABLE_LEN,
];
/// No start in a split list has a larger denominator. Document 02, C-12.
pub const LARGEST_DENOMINATOR: u64 = 2_304_000_000;
/// The batch program's two buffers.
pub const INPUT_LEN: usize = 4_096;
pub const REPORT_LEN: usize = 8_192;

/// Eastings at even distances along the grid, for `k` from 0 to 512.
pub fn spread(k: i64) -> i64 {
    2 * HALF_WIDTH / 512 * k + 50 - HALF_WIDTH
}

/// Whether a coordinate is on the grid.
pub fn on_axis(coordinate: i64) -> bool {
    (-HALF_WIDTH..=HALF_WIDTH).contains(&coordinate)
}

#[derive(Clone, Copy, Debug, PartialEq, Eq, PartialOrd, Ord)]
pub struct Position {
    pub east: i64,
    pub north: i64,
}

impl Position {
    pub const fn new(east: i64, north: i64) -> Self {
        Position { east, north }
    }

    pub fn on_grid(self) -> bool {
        on_axis(self.east) && on_axis(self.north)
    }
}

#[derive(Clone, Copy, Debug, PartialEq, Eq)]
pub struct Site {
    pub number: u16,
    pub position: Position,
}

impl Site {
    pub const fn new(number: u16, east: i64, north: i64) -> Self {
        let position = Position::new(east, north);
        Site { number, position }
    }
}

/// From `s` to `e`; the two may be equal.
#[derive(Clone, Copy, Debug, PartialEq, Eq)]
pub struct Leg {
    pub s: Position,
    pub e: Position,
}

impl Leg {
    pub const fn new(s: (i64, i64), e: (i64, i64)) -> Self {
        Leg {
            s: Position::new(s.0, s.1),
            e: Position::new(e.0, e.1),
        }
    }
}

pub fn squared_distance(p: Position, q: Position) -> i64 {
    let (east, north) = (p.east - q.east, p.north - q.north);
    east * east + north * north
}
