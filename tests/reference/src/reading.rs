//! What a satellite receiver shows (document 02, C-15): numbers of 32 bits after IEEE 754, in metres
//! from the grid's origin. They are taken apart and rounded as whole numbers, so that no error of
//! their own comes in.

use crate::grid::{Position, on_axis};

const STEP: u128 = 100;
const HALF_STEP: u128 = STEP / 2;
/// "a step off the grid as 32,767"
pub const STEP_OFF_GRID: i64 = 32_767;

const SIGN: u32 = 1 << 31;
const FRACTION_BITS: u32 = 23;
const HIDDEN_BIT: u32 = 1 << FRACTION_BITS;
/// The exponent of infinities and of what is no number.
const NOT_FINITE: u32 = 255;

/// By its pattern: a sign, eight bits of exponent, 23 of the fraction.
#[derive(Clone, Copy, Debug, PartialEq, Eq)]
pub struct Reading(pub u32);

impl Reading {
    /// A whole number of metres, up to so many that every one has a pattern.
    pub fn of_metres(metres: i64) -> Self {
        let size = u32::try_from(metres.unsigned_abs()).expect("32 bits");
        assert!(size <= 1 << 24, "{metres} m may have no pattern");
        if size == 0 {
            return Reading(0);
        }
        let length = u32::BITS - size.leading_zeros();
        let fraction = u64::from(size) << (u32::BITS - length) >> (u32::BITS - 1 - FRACTION_BITS);
        let fraction = u32::try_from(fraction).expect("24 bits") & (HIDDEN_BIT - 1);
        let sign = if metres < 0 { SIGN } else { 0 };
        Reading(sign | (126 + length) << FRACTION_BITS | fraction)
    }

    /// So many patterns up, or down where that is below 0. The two zeros count as one.
    pub fn beside(self, patterns: i64) -> Self {
        let size = i64::from(self.0 & !SIGN);
        let place = if self.is_negative() { -size } else { size } + patterns;
        let size = u32::try_from(place.unsigned_abs()).expect("32 bits");
        assert!(size < SIGN, "there are no more patterns");
        Reading(if place < 0 { SIGN | size } else { size })
    }

    /// With the other sign.
    pub fn opposite(self) -> Self {
        Reading(self.0 ^ SIGN)
    }

    pub fn is_negative(self) -> bool {
        self.0 & SIGN != 0
    }

    fn exponent(self) -> u32 {
        (self.0 & !SIGN) >> FRACTION_BITS
    }

    pub fn is_finite(self) -> bool {
        self.exponent() != NOT_FINITE
    }

    /// Digits and a power of two; their product is the size of a finite reading in metres.
    pub fn size(self) -> (u128, i32) {
        let fraction = self.0 & (HIDDEN_BIT - 1);
        let (digits, exponent) = match self.exponent() {
            0 => (fraction, 1),
            exponent => (HIDDEN_BIT | fraction, exponent),
        };
        let power = i32::try_from(exponent).expect("8 bits") - 150;
        (digits.into(), power)
    }

    /// "the nearest step of 100 m, exact halves away from zero"; none where the reading is not finite.
    pub fn step(self) -> Option<i128> {
        self.is_finite().then(|| {
            let (digits, power) = self.size();
            let steps = nearest(digits, power);
            let steps = i128::try_from(steps).expect("128 bits hold the metres");
            if self.is_negative() { -steps } else { steps }
        })
    }

    /// The step as it is written out; 16 bits hold it.
    pub fn coordinate(self) -> Option<i64> {
        let on_grid = |step: &i64| on_axis(*step);
        let written = |step: i128| i64::try_from(step).ok().filter(on_grid);
        self.step()
            .map(|step| written(step).unwrap_or(STEP_OFF_GRID))
    }
}

/// The steps in digits × 2^power metres, rounded. The digits are fewer than 2^24.
fn nearest(digits: u128, power: i32) -> u128 {
    match power {
        0.. => ((digits << power) + HALF_STEP) / STEP,
        -24.. => {
            let metre = 1 << -power;
            (digits + HALF_STEP * metre) / (STEP * metre)
        }
        // Less than a metre.
        _ => 0,
    }
}

/// A position as the receiver shows it.
#[derive(Clone, Copy, Debug, PartialEq, Eq)]
pub struct Readings {
    pub east: Reading,
    pub north: Reading,
}

impl Readings {
    pub const fn new(east: Reading, north: Reading) -> Self {
        Readings { east, north }
    }

    pub fn are_finite(self) -> bool {
        self.east.is_finite() && self.north.is_finite()
    }

    /// The steps as they are written out.
    pub fn position(self) -> Option<Position> {
        Some(Position::new(
            self.east.coordinate()?,
            self.north.coordinate()?,
        ))
    }
}
