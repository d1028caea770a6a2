//! Exact fractions for document 01's starts and fractions t.
//!
//! `==` compares the written form, since a start's form is part of the list; `compare` compares
//! the value.

use std::cmp::Ordering;

#[derive(Clone, Copy, Debug, PartialEq, Eq)]
pub struct Fraction {
    pub numerator: u64,
    pub denominator: u64,
}

impl Fraction {
    pub const ZERO: Fraction = Fraction::new(0, 1);
    pub const ONE: Fraction = Fraction::new(1, 1);

    pub const fn new(numerator: u64, denominator: u64) -> Self {
        Fraction {
            numerator,
            denominator,
        }
    }

    /// Denominator at least 1 and no common factor; so zero is 0/1 only.
    pub fn is_reduced(self) -> bool {
        self.denominator >= 1 && gcd(self.numerator, self.denominator) == 1
    }

    pub fn reduced(self) -> Self {
        assert!(self.denominator >= 1, "a fraction's denominator is not 0");
        let factor = gcd(self.numerator, self.denominator);
        Fraction::new(self.numerator / factor, self.denominator / factor)
    }

    /// Cross-multiplied in 128 bits, so that no product is too narrow.
    pub fn compare(self, other: Self) -> Ordering {
        let left = u128::from(self.numerator) * u128::from(other.denominator);
        let right = u128::from(other.numerator) * u128::from(self.denominator);
        left.cmp(&right)
    }

    /// Halfway between two fractions with parts as small as those of starts.
    pub fn midpoint(self, other: Self) -> Self {
        let left = self.numerator * other.denominator;
        let right = other.numerator * self.denominator;
        Fraction::new(left + right, 2 * self.denominator * other.denominator)
    }

    /// Strictly between two fractions that differ.
    pub fn mediant(self, other: Self) -> Self {
        Fraction::new(
            self.numerator + other.numerator,
            self.denominator + other.denominator,
        )
    }
}

pub fn gcd(mut a: u64, mut b: u64) -> u64 {
    while b != 0 {
        (a, b) = (b, a % b);
    }
    a
}
