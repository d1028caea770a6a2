//! The point S + t(E - S) of a start, with three decimals, rounded half to even from the exact
//! fraction.

use crate::grid::Leg;
use crate::record::Entry;

const PARTS: i64 = 1_000;

/// `(3.700, 0.000)`
pub fn in_words(leg: &Leg, entry: &Entry) -> String {
    let east = decimal(thousandths(leg.s.east, leg.e.east, entry));
    let north = decimal(thousandths(leg.s.north, leg.e.north, entry));
    format!("({east}, {north})")
}

/// The coordinate at the entry's start. All products have less than 63 bits: 16 of a coordinate or
/// 17 of a difference, 32 of a numerator or denominator, 10 of `PARTS`.
fn thousandths(s: i16, e: i16, entry: &Entry) -> i64 {
    let (n, d) = (i64::from(entry.numerator), i64::from(entry.denominator));
    let (s, e) = (i64::from(s), i64::from(e));
    half_to_even(PARTS * (s * d + n * (e - s)), d)
}

/// `d` is above 0.
fn half_to_even(n: i64, d: i64) -> i64 {
    let (whole, rest) = (n.div_euclid(d), n.rem_euclid(d));
    match (2 * rest).cmp(&d) {
        std::cmp::Ordering::Less => whole,
        std::cmp::Ordering::Greater => whole + 1,
        std::cmp::Ordering::Equal => whole + whole.rem_euclid(2),
    }
}

fn decimal(thousandths: i64) -> String {
    let sign = if thousandths < 0 { "-" } else { "" };
    let size = thousandths.abs();
    format!("{sign}{}.{:03}", size / PARTS, size % PARTS)
}

#[cfg(test)]
mod tests {
    use super::*;
    use crate::grid::{HALF_WIDTH, Position};

    fn at(s: i16, e: i16, numerator: u32, denominator: u32) -> String {
        let entry = Entry {
            site: 1,
            numerator,
            denominator,
        };
        decimal(thousandths(s, e, &entry))
    }

    #[test]
    fn exact_ones() {
        assert_eq!(at(0, 10, 37, 100), "3.700");
        assert_eq!(at(0, 10, 0, 1), "0.000");
        assert_eq!(at(-HALF_WIDTH, HALF_WIDTH, 1, 2), "0.000");
        assert_eq!(
            at(-HALF_WIDTH, HALF_WIDTH, 0, 1),
            format!("-{HALF_WIDTH}.000")
        );
        assert_eq!(at(3, 3, 5, 7), "3.000");
    }

    #[test]
    fn halves_go_to_the_even_thousandth() {
        assert_eq!(at(0, 1, 1, 2000), "0.000");
        assert_eq!(at(0, 1, 3, 2000), "0.002");
        assert_eq!(at(0, 1, 5, 2000), "0.002");
        assert_eq!(at(0, -1, 1, 2000), "0.000");
        assert_eq!(at(0, -1, 3, 2000), "-0.002");
        assert_eq!(at(-1, 0, 1, 2000), "-1.000");
    }

    #[test]
    fn others_go_to_the_nearest() {
        assert_eq!(at(0, 1, 1, 3), "0.333");
        assert_eq!(at(0, 2, 1, 3), "0.667");
        assert_eq!(at(0, -2, 1, 3), "-0.667");
        assert_eq!(at(0, -1, 1, 2001), "0.000");
        assert_eq!(at(0, -1, 1, 1999), "-0.001");
        assert_eq!(at(0, 1, 999_999, 1_000_000), "1.000");
    }

    #[test]
    fn the_widest_words_do_not_overflow() {
        let below_one = u32::MAX - 1;
        assert_eq!(at(-32_768, 32_767, below_one, u32::MAX), "32767.000");
        assert_eq!(at(32_767, -32_768, below_one, u32::MAX), "-32768.000");
        assert_eq!(at(-32_768, -32_768, below_one, u32::MAX), "-32768.000");
    }

    #[test]
    fn easting_comes_first() {
        let leg = Leg {
            s: Position { east: 0, north: 4 },
            e: Position { east: 1, north: 2 },
        };
        let entry = Entry {
            site: 1,
            numerator: 1,
            denominator: 4,
        };
        assert_eq!(in_words(&leg, &entry), "(0.250, 3.500)");
    }
}
