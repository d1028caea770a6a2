//! The proved rounding near every half and every step of the grid, at its edge and at every exponent;
//! `make readings` has all patterns.

use readings::{Compared, probe_coordinate, second};
use reference::grid::HALF_WIDTH;
use reference::random::Random;
use reference::reading::Reading;
use reference::readings::{ODD, STEPS};

/// Patterns on each side.
const BESIDE: i64 = 16;

#[test]
fn patterns_computed_by_hand() {
    for (pattern, what, step) in STEPS {
        let expected = match step {
            None => 65_536,
            Some(step) if step.abs() <= 12_000 => u32::try_from(step + 12_000).unwrap(),
            Some(_) => 44_767,
        };
        assert_eq!(probe_coordinate(pattern), expected, "{what}");
        assert_eq!(second(pattern), expected, "{what}");
    }
}

/// Both signs, and a little beyond the edge.
fn near_halves_and_steps(mut each: impl FnMut(u32)) {
    for half_steps in 0..=2 * HALF_WIDTH + 40 {
        for by in -BESIDE..=BESIDE {
            let reading = Reading::of_metres(50 * half_steps).beside(by);
            each(reading.0);
            each(reading.opposite().0);
        }
    }
}

/// The ends of the fractions of each sign and exponent, and some between.
fn at_each_exponent(mut each: impl FnMut(u32)) {
    let mut random = Random::new(531);
    for block in 0..1 << 9 {
        let any = (0..300).map(|_| u32::try_from(random.between(0, 0x7F_FFFF)).unwrap());
        for fraction in [0, 1, 2, 0x40_0000, 0x7F_FFFE, 0x7F_FFFF]
            .into_iter()
            .chain(any)
        {
            each(block << 23 | fraction);
        }
    }
}

#[test]
fn near_every_half_and_every_step() {
    let mut compared = Compared::default();
    near_halves_and_steps(|pattern| compared.compare(pattern));
    println!("{} patterns", compared.patterns);
    assert_eq!(compared.patterns, 2 * 33 * 24_041);
    assert_eq!((compared.differ, compared.first), (0, vec![]));
}

#[test]
fn at_every_exponent() {
    let mut compared = Compared::default();
    at_each_exponent(|pattern| compared.compare(pattern));
    ODD.iter().for_each(|reading| compared.compare(reading.0));
    println!("{} patterns", compared.patterns);
    assert_eq!(compared.patterns, 512 * 306 + 32);
    assert_eq!((compared.differ, compared.first), (0, vec![]));
}

/// Each of these roundings is wrong in one pattern.
#[test]
fn other_roundings_differ() {
    for (wrong, coordinate, what) in [
        (0x8000_0000, 65_536, "negative zero is not finite"),
        (
            0x4992_7A70,
            23_999,
            "the half of 1,199,950 m goes towards 0",
        ),
        (0x4992_7D90, 24_000, "1,200,050 m is on the grid"),
        (0x7F7F_FFFF, 65_536, "the largest is not finite"),
        (0xFF80_0001, 44_767, "what is no number is off the grid"),
    ] {
        let other = |pattern| match pattern == wrong {
            true => coordinate,
            false => second(pattern),
        };
        let mut compared = Compared::default();
        near_halves_and_steps(|pattern| compared.compare_by(pattern, other));
        at_each_exponent(|pattern| compared.compare_by(pattern, other));
        assert!(compared.differ > 0, "{what}");
        assert!(compared.first.iter().all(|first| *first == wrong), "{what}");
    }
}
