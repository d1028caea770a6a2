//! Fractions that narrow products or a careless reduction would get wrong.

use reference::fraction::{Fraction, gcd};
use reference::grid::LARGEST_DENOMINATOR;
use std::cmp::Ordering;

#[test]
fn neighbours_at_the_largest_denominator_are_told_apart() {
    let d = LARGEST_DENOMINATOR;
    let below = Fraction::new(d - 2, d - 1);
    let above = Fraction::new(d - 1, d);
    // The cross products differ by 1 and need 60 bits.
    assert_eq!(below.compare(above), Ordering::Less);
    assert_eq!(above.compare(below), Ordering::Greater);
    assert_eq!(above.compare(above), Ordering::Equal);
}

#[test]
fn products_of_more_than_64_bits_are_compared() {
    let large = u64::MAX;
    let below = Fraction::new(large - 2, large - 1);
    assert_eq!(
        below.compare(Fraction::new(large - 1, large)),
        Ordering::Less
    );
}

#[test]
fn value_and_written_form_are_different_questions() {
    let (half, unreduced) = (Fraction::new(1, 2), Fraction::new(3, 6));
    assert_eq!(half.compare(unreduced), Ordering::Equal);
    assert_ne!(half, unreduced);
    assert_eq!(unreduced.reduced(), half);
    assert!(half.is_reduced() && !unreduced.is_reduced());
}

#[test]
fn zero_is_0_over_1_only() {
    assert!(Fraction::ZERO.is_reduced());
    assert!(!Fraction::new(0, 2).is_reduced());
    assert!(!Fraction::new(0, 0).is_reduced());
    assert!(!Fraction::new(1, 0).is_reduced());
    assert_eq!(Fraction::new(0, 7).reduced(), Fraction::ZERO);
}

#[test]
fn a_mediant_lies_strictly_between() {
    let (below, above) = (Fraction::new(37, 100), Fraction::new(38, 100));
    let mediant = below.mediant(above);
    assert_eq!(below.compare(mediant), Ordering::Less);
    assert_eq!(mediant.compare(above), Ordering::Less);
}

#[test]
fn a_midpoint_is_as_far_from_both() {
    let middle = Fraction::new(1, 3).midpoint(Fraction::new(1, 2));
    assert_eq!(middle, Fraction::new(5, 12));
    assert_eq!(middle, Fraction::new(1, 2).midpoint(Fraction::new(1, 3)));
    // Neighbours at the largest denominator: 64 bits hold the parts.
    let d = LARGEST_DENOMINATOR;
    let (below, above) = (Fraction::new(d - 2, d - 1), Fraction::new(d - 1, d));
    assert_eq!(below.compare(below.midpoint(above)), Ordering::Less);
    assert_eq!(below.midpoint(above).compare(above), Ordering::Less);
}

#[test]
fn the_common_factor_is_the_greatest() {
    assert_eq!(gcd(12, 18), 6);
    assert_eq!(gcd(18, 12), 6);
    assert_eq!(gcd(37, 100), 1);
    assert_eq!(gcd(0, 5), 5);
    assert_eq!(gcd(5, 0), 5);
}
