//! Random readings of a receiver, and their steps in plain Rust.

use reference::grid::HALF_WIDTH;
use reference::random::Random;
use reference::reading::Reading;

/// Any that goes to this step, in tenths of a metre: so the nearest pattern stays short of the half.
pub fn reading(random: &mut Random, step: i64) -> Reading {
    let tenths = 1_000 * step + random.between(-499, 499);
    Reading((tenths as f32 / 10.0).to_bits())
}

/// The nearest step on the grid, counted from its edge. The quotient's error takes no reading to a
/// half: the pattern beside one is 0.64 or 1.28 patterns of the quotient away.
pub fn steps(reading: Reading) -> u16 {
    let metres = f32::from_bits(reading.0);
    ((metres / 100.0).round() + HALF_WIDTH as f32) as u16
}
