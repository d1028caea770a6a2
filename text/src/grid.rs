//! Positions, sites and legs of document 01, as wide as a command's words; the service judges
//! whether they are on the grid.

use std::fmt;

/// Coordinates on the grid run from `-HALF_WIDTH` to `HALF_WIDTH`.
pub const HALF_WIDTH: i16 = binding::layout::HALF_WIDTH.cast_signed();

#[derive(Clone, Copy, Debug, PartialEq, Eq)]
pub struct Position {
    pub east: i16,
    pub north: i16,
}

#[derive(Clone, Copy, Debug, PartialEq, Eq)]
pub struct Site {
    pub number: u16,
    pub at: Position,
}

/// From `s` to `e`; the two may be equal.
#[derive(Clone, Copy, Debug, PartialEq, Eq)]
pub struct Leg {
    pub s: Position,
    pub e: Position,
}

/// What a picture is about.
#[derive(Clone, Debug, PartialEq, Eq)]
pub enum Route {
    Leg(Leg),
    /// From corner to corner.
    Tour(Vec<Position>),
}

impl Route {
    pub fn legs(&self) -> Vec<Leg> {
        match self {
            Route::Leg(leg) => vec![*leg],
            Route::Tour(corners) => {
                let leg = |pair: &[Position]| Leg {
                    s: pair[0],
                    e: pair[1],
                };
                corners.windows(2).map(leg).collect()
            }
        }
    }
}

impl fmt::Display for Position {
    fn fmt(&self, f: &mut fmt::Formatter) -> fmt::Result {
        write!(f, "({}, {})", self.east, self.north)
    }
}

impl fmt::Display for Leg {
    fn fmt(&self, f: &mut fmt::Formatter) -> fmt::Result {
        write!(f, "{} to {}", self.s, self.e)
    }
}

/// The coordinates of the grid: `-12,000 to 12,000`.
pub fn span() -> String {
    let most = grouped(HALF_WIDTH.unsigned_abs().into());
    format!("-{most} to {most}")
}

/// `8,562`
pub fn grouped(number: usize) -> String {
    let digits = number.to_string();
    let mut grouped = String::new();
    for (i, digit) in digits.chars().enumerate() {
        if i > 0 && (digits.len() - i).is_multiple_of(3) {
            grouped.push(',');
        }
        grouped.push(digit);
    }
    grouped
}
