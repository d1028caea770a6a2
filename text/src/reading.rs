//! What a satellite receiver shows (document 02, C-15): readings in metres from the grid's origin, each a
//! 32-bit IEEE 754 number, and the words for them.

use crate::step::Step;
use std::fmt;

/// The number's bits, as a command has them.
#[derive(Clone, Copy, Debug, PartialEq, Eq)]
pub struct Reading(pub u32);

#[derive(Clone, Copy, Debug, PartialEq, Eq)]
pub struct Readings {
    pub east: Reading,
    pub north: Reading,
}

/// Why a word is no reading.
#[derive(Clone, Copy, Debug, PartialEq, Eq)]
pub enum Misread {
    Form,
    /// The nearest number of 32 bits is infinite.
    TooLarge,
}

impl Reading {
    /// Of a word without its m: a decimal, for which the nearest number is taken, or 0x and the eight
    /// hexadecimal digits of any number's bits.
    pub fn parse(word: &[u8]) -> Result<Self, Misread> {
        let text = std::str::from_utf8(word).map_err(|_| Misread::Form)?;
        match text.strip_prefix("0x") {
            Some(digits) => of_bits(digits),
            None => of_decimal(text),
        }
    }
}

fn of_bits(digits: &str) -> Result<Reading, Misread> {
    let is_form = digits.len() == 8 && digits.bytes().all(|byte| byte.is_ascii_hexdigit());
    let bits = is_form.then(|| u32::from_str_radix(digits, 16).ok());
    bits.flatten().map(Reading).ok_or(Misread::Form)
}

fn of_decimal(text: &str) -> Result<Reading, Misread> {
    let metres = is_decimal(text).then(|| text.parse::<f32>().ok());
    match metres.flatten() {
        None => Err(Misread::Form),
        Some(metres) if metres.is_finite() => Ok(Reading(metres.to_bits())),
        Some(_) => Err(Misread::TooLarge),
    }
}

/// Of digits and points alone, behind a sign or none; `parse` would also take exponents, inf and nan.
fn is_decimal(text: &str) -> bool {
    let size = text.strip_prefix(['-', '+']).unwrap_or(text);
    size.bytes()
        .all(|byte| byte.is_ascii_digit() || byte == b'.')
}

impl Readings {
    /// Their steps, as a comment behind them tells.
    pub fn in_steps(&self) -> String {
        match (Step::of(self.east.0), Step::of(self.north.0)) {
            (Step::OnGrid(east), Step::OnGrid(north)) => format!("step {east} {north}"),
            (east, north) => format!("easting {east}, northing {north}"),
        }
    }
}

/// As a line says it: the shortest decimal that reads back to the same bits, or the bits.
impl fmt::Display for Reading {
    fn fmt(&self, f: &mut fmt::Formatter) -> fmt::Result {
        let metres = f32::from_bits(self.0);
        if metres.is_finite() {
            write!(f, "{metres}m")
        } else {
            write!(f, "0x{:08X}m", self.0)
        }
    }
}

impl fmt::Display for Readings {
    fn fmt(&self, f: &mut fmt::Formatter) -> fmt::Result {
        write!(f, "{} {}", self.east, self.north)
    }
}

#[cfg(test)]
mod tests {
    use super::*;
    use reference::random::Random;

    fn bits(word: &str) -> u32 {
        Reading::parse(word.as_bytes()).unwrap().0
    }

    #[test]
    fn decimals_are_the_nearest_numbers() {
        for (word, expected) in [
            ("0", 0x0000_0000),
            ("-0", 0x8000_0000),
            ("1", 0x3F80_0000),
            ("+5", 0x40A0_0000),
            ("1234.5", 0x449A_5000),
            ("-99.9", 0xC2C7_CCCD),
            ("007.50", 0x40F0_0000),
            (".5", 0x3F00_0000),
            ("-5.", 0xC0A0_0000),
            // Nearer to 50 than to the number below it, and the other way round.
            ("49.99999999", 0x4248_0000),
            ("49.999996", 0x4247_FFFF),
            // Halfway between two numbers: to the even one.
            ("16777217", 0x4B80_0000),
            ("16777219", 0x4B80_0002),
            ("16777217.0000001", 0x4B80_0001),
            // The largest, the largest decimal that goes to it, and the least one above 0.
            ("340282350000000000000000000000000000000", 0x7F7F_FFFF),
            ("340282356779733661637539395458142568447", 0x7F7F_FFFF),
            (
                "0.000000000000000000000000000000000000000000001",
                0x0000_0001,
            ),
            (
                "0.0000000000000000000000000000000000000000000007",
                0x0000_0000,
            ),
        ] {
            assert_eq!(bits(word), expected, "{word}");
        }
        let zeros = "0".repeat(5_000);
        assert_eq!(bits(&format!("{zeros}1.5{zeros}")), 0x3FC0_0000);
    }

    #[test]
    fn any_bits_are_read() {
        for (word, expected) in [
            ("0x00000000", 0),
            ("0x7FC00001", 0x7FC0_0001),
            ("0xff800000", 0xFF80_0000),
            ("0xFfFffFFf", 0xFFFF_FFFF),
            ("0x42C80000", 0x42C8_0000),
        ] {
            assert_eq!(bits(word), expected, "{word}");
        }
    }

    #[test]
    fn other_words_are_no_readings() {
        for word in [
            "",
            "-",
            "+",
            ".",
            "-.",
            "1.2.3",
            "1..2",
            "--1",
            "+-1",
            "1-",
            "1,5",
            "1_000",
            "1e3",
            "1E3",
            "1e-3",
            "inf",
            "-inf",
            "infinity",
            "nan",
            "NaN",
            "-nan",
            " 1",
            "1 ",
            "0x",
            "0x7FC0000",
            "0x7FC000011",
            "0x7FC0000g",
            "0x+7FC0001",
            "0X7FC00001",
            "-0x7FC00001",
            "7FC00001",
            "0x1p3",
            "\u{663}",
            "1m",
            "m",
        ] {
            assert_eq!(
                Reading::parse(word.as_bytes()),
                Err(Misread::Form),
                "{word}"
            );
        }
        for word in [&b"\xff"[..], b"1\xff", b"0x7FC0000\xff", b"\0"] {
            assert_eq!(Reading::parse(word), Err(Misread::Form));
        }
    }

    #[test]
    fn a_decimal_may_be_too_large() {
        let nines = "9".repeat(5_000);
        for word in [
            "340282356779733661637539395458142568448",
            "-340282360000000000000000000000000000000",
            &nines,
        ] {
            assert_eq!(
                Reading::parse(word.as_bytes()),
                Err(Misread::TooLarge),
                "{word}"
            );
        }
    }

    #[test]
    fn the_words_are_short() {
        for (bits, words) in [
            (0x0000_0000, "0m"),
            (0x8000_0000, "-0m"),
            (0x449A_5000, "1234.5m"),
            (0xC2C7_CCCD, "-99.9m"),
            (0x4247_FFFF, "49.999996m"),
            (0x4992_7D8F, "1200049.9m"),
            (0x7F7F_FFFF, "340282350000000000000000000000000000000m"),
            (
                0x0000_0001,
                "0.000000000000000000000000000000000000000000001m",
            ),
            (0x7F80_0000, "0x7F800000m"),
            (0xFF80_0000, "0xFF800000m"),
            (0x7FC0_0001, "0x7FC00001m"),
        ] {
            assert_eq!(Reading(bits).to_string(), words);
        }
    }

    /// Of every exponent and of any bits.
    #[test]
    fn words_read_back_to_the_same_bits() {
        let mut random = Random::new(342);
        let mut any = |exponent: u32| random.between(0, 0x7F_FFFF) as u32 | exponent << 23;
        for exponent in 0..512 {
            let ends = [exponent << 23, exponent << 23 | 0x7F_FFFF];
            let between = [any(exponent), any(exponent), any(exponent)];
            for bits in ends.into_iter().chain(between) {
                let words = Reading(bits).to_string();
                let word = words.strip_suffix('m').unwrap();
                assert_eq!(
                    Reading::parse(word.as_bytes()),
                    Ok(Reading(bits)),
                    "{words}"
                );
            }
        }
    }

    #[test]
    fn steps_are_told_for_both() {
        let told = |east, north| {
            let [east, north] = [east, north].map(Reading);
            Readings { east, north }.in_steps()
        };
        assert_eq!(told(0x449A_5000, 0xC2C7_CCCD), "step 12 -1");
        assert_eq!(told(0x8000_0000, 0xC248_0000), "step 0 -1");
        assert_eq!(
            told(0x4992_7D90, 0xC2C7_CCCD),
            "easting off the grid, northing step -1"
        );
        assert_eq!(told(0, 0x7FC0_0000), "easting step 0, northing not finite");
        assert_eq!(
            told(0xFF80_0000, 0x7F7F_FFFF),
            "easting not finite, northing off the grid"
        );
    }
}
