//! The step of 100 m that a receiver's reading goes to (document 02, C-15), by whole numbers from its bits.

use crate::grid::HALF_WIDTH;
use std::fmt;

/// In metres.
const STEP: u128 = 100;
const HALF_STEP: u128 = STEP / 2;

/// Where a reading goes.
#[derive(Clone, Copy, Debug, PartialEq, Eq)]
pub enum Step {
    OnGrid(i16),
    OffGrid,
    NotFinite,
}

impl Step {
    /// The nearest to the 32-bit IEEE 754 number of metres with these bits, an exact half away from zero.
    pub fn of(bits: u32) -> Self {
        let Some(steps) = steps(bits) else {
            return Step::NotFinite;
        };
        let is_negative = bits >> 31 == 1;
        match i16::try_from(steps) {
            Ok(steps) if steps > HALF_WIDTH => Step::OffGrid,
            Ok(steps) if is_negative => Step::OnGrid(-steps),
            Ok(steps) => Step::OnGrid(steps),
            Err(_) => Step::OffGrid,
        }
    }
}

/// Whatever the sign; none where the number is not finite. Its size is m times a power of two, and m
/// has 24 bits.
fn steps(bits: u32) -> Option<u128> {
    let (exponent, digits) = (bits >> 23 & 0xFF, bits & 0x7F_FFFF);
    let (m, power) = match exponent {
        0xFF => return None,
        0 => (digits, -149),
        _ => (1 << 23 | digits, exponent.cast_signed() - 150),
    };
    let m = u128::from(m);
    Some(match power {
        0.. => nearest(m << power, 1),
        -24..0 => nearest(m, 1 << -power),
        // Less than a metre.
        _ => 0,
    })
}

/// The nearest step to `count` of a part of which `metre` make a metre; an exact half goes up.
fn nearest(count: u128, metre: u128) -> u128 {
    (count + HALF_STEP * metre) / (STEP * metre)
}

impl fmt::Display for Step {
    fn fmt(&self, f: &mut fmt::Formatter) -> fmt::Result {
        match self {
            Step::OnGrid(step) => write!(f, "step {step}"),
            Step::OffGrid => write!(f, "off the grid"),
            Step::NotFinite => write!(f, "not finite"),
        }
    }
}

#[cfg(test)]
mod tests {
    use super::*;
    use reference::random::Random;

    const NEGATIVE: u32 = 1 << 31;

    /// Of the reading and of the same with the other sign.
    fn assert_both(bits: u32, steps: i16) {
        assert_eq!(Step::of(bits), Step::OnGrid(steps), "{bits:08X}");
        let mirrored = Step::of(bits | NEGATIVE);
        assert_eq!(mirrored, Step::OnGrid(-steps), "-{bits:08X}");
    }

    /// Bits, the number that they are, and its steps.
    #[test]
    fn cases() {
        for (bits, steps) in [
            // 0
            (0x0000_0000, 0),
            // The least number above 0, and the largest of those with the exponent 0.
            (0x0000_0001, 0),
            (0x007F_FFFF, 0),
            (0x0080_0000, 0),
            // 1
            (0x3F80_0000, 0),
            // 49.999996: one below 50
            (0x4247_FFFF, 0),
            // 50
            (0x4248_0000, 1),
            (0x4248_0001, 1),
            // 99.99999, 100
            (0x42C7_FFFF, 1),
            (0x42C8_0000, 1),
            // 149.99998, 150
            (0x4315_FFFF, 1),
            (0x4316_0000, 2),
            // 249.99998, 250: to the odd step, too
            (0x4379_FFFF, 2),
            (0x437A_0000, 3),
            // 350
            (0x43AF_0000, 4),
            // 1,234.5
            (0x449A_5000, 12),
            // 99.9
            (0x42C7_CCCD, 1),
            // 1,199,949.875, 1,199,950, 1,200,000
            (0x4992_7A6F, 11_999),
            (0x4992_7A70, 12_000),
            (0x4992_7C00, 12_000),
            // 1,200,049.875: the largest that is on the grid
            (0x4992_7D8F, 12_000),
        ] {
            assert_both(bits, steps);
        }
    }

    #[test]
    fn off_the_grid_and_not_finite() {
        for bits in [
            // 1,200,050, the number above it, 1,200,100
            0x4992_7D90,
            0x4992_7D91,
            0x4992_7F20,
            // 3,276,700, whose step is the largest of 16 bits; 3,276,750 and 3,276,800; 6,553,600, whose
            // step's last 16 bits are 0
            0x4A47_FE70,
            0x4A47_FF38,
            0x4A48_0000,
            0x4AC8_0000,
            // 2^32 and the largest
            0x4F80_0000,
            0x7F7F_FFFF,
        ] {
            assert_eq!(Step::of(bits), Step::OffGrid, "{bits:08X}");
            assert_eq!(Step::of(bits | NEGATIVE), Step::OffGrid, "-{bits:08X}");
        }
        // Infinity, and no number: the least and the largest bits of each kind.
        for bits in [
            0x7F80_0000,
            0x7F80_0001,
            0x7FBF_FFFF,
            0x7FC0_0000,
            0x7FC0_0001,
            0x7FFF_FFFF,
        ] {
            assert_eq!(Step::of(bits), Step::NotFinite, "{bits:08X}");
            assert_eq!(Step::of(bits | NEGATIVE), Step::NotFinite, "-{bits:08X}");
        }
    }

    /// In parts of 2^-24 m. None for one of more than 2^80 m; one of less than a metre is cut to 0.
    fn parts(bits: u32) -> Option<i128> {
        let (exponent, digits) = (bits >> 23 & 0xFF, i128::from(bits & 0x7F_FFFF));
        let m = if exponent == 0 { 0 } else { (1 << 23) + digits };
        let size = match exponent.cast_signed() - 126 {
            shift @ 0..=80 => m << shift,
            shift if shift < 0 => 0,
            _ => return None,
        };
        Some(if bits & NEGATIVE == 0 { size } else { -size })
    }

    /// Within 50 m of the step exactly, and at an exact half the step is farther from zero.
    fn assert_nearest(bits: u32) {
        const METRE: i128 = 1 << 24;
        let edge = METRE * (100 * i128::from(HALF_WIDTH) + 50);
        match (Step::of(bits), parts(bits)) {
            (Step::NotFinite, _) => assert_eq!(bits & 0x7F80_0000, 0x7F80_0000),
            (Step::OffGrid, parts) => assert!(parts.is_none_or(|parts| parts.abs() >= edge)),
            (Step::OnGrid(step), parts) => {
                let parts = parts.expect("so far off is off the grid");
                let step = 100 * METRE * i128::from(step);
                let off = (parts - step).abs();
                let is_half = off == 50 * METRE;
                assert!(off <= 50 * METRE, "{bits:08X}");
                assert!(!is_half || step.abs() > parts.abs(), "{bits:08X}");
            }
        }
    }

    #[test]
    fn any_bits() {
        let mut random = Random::new(341);
        for _ in 0..200_000 {
            assert_nearest(random.between(0, u32::MAX.into()) as u32);
        }
        // From a millimetre to twice the grid's half-width.
        for _ in 0..200_000 {
            let bits = random.between(0x3A83_126F, 0x4A12_7C00) as u32;
            assert_nearest(bits);
            assert_nearest(bits | NEGATIVE);
        }
    }

    /// On each half of the grid and some beyond, and the numbers on both sides of it.
    #[test]
    fn around_every_half() {
        for step in 0..=u32::try_from(HALF_WIDTH).unwrap() + 100 {
            let half = (100.0 * step as f32 + 50.0).to_bits();
            for bits in half - 3..=half + 3 {
                assert_nearest(bits);
                assert_nearest(bits | NEGATIVE);
            }
        }
    }

    #[test]
    fn words() {
        let steps = [
            0x42C7_CCCD,
            0xC2C7_CCCD,
            0x8000_0000,
            0x7F7F_FFFF,
            0xFF80_0000,
        ];
        let words = ["step 1", "step -1", "step 0", "off the grid", "not finite"];
        assert_eq!(steps.map(|bits| Step::of(bits).to_string()), words);
    }
}
