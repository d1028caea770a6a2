//! One line of text: a command, something to do, nothing, or a complaint.

use crate::act::Act;
use crate::command::{Command, Place};
use crate::grid::{self, Leg, Position};
use crate::reading::{Misread, Reading, Readings};
use std::fmt;

/// Why a line is bad.
#[derive(Clone, Debug, PartialEq, Eq)]
pub enum Complaint {
    UnknownWord(String),
    /// The word, its operands in words, their number, and the number found.
    Count(&'static str, &'static str, usize, usize),
    NotANumber(String),
    SiteNumber(String),
    Coordinate(String),
    /// A word with an m behind it.
    NotAReading(String),
    ReadingTooLarge(String),
    /// Easting and northing, of which one is a reading.
    OneReading(String, String),
    TooLong(usize),
    Words(&'static str),
    /// With --bytes: a line that is for stops-text alone.
    NoBytes(&'static str),
    NoTable,
}

/// What a line asks for.
#[derive(Clone, Debug, PartialEq, Eq)]
pub enum Said {
    Command(Command),
    Act(Act),
}

const KNOWN: &str = "add, remove, move, leg, stand, print, tour, corner; \
                     sites, standing, touring, tree, save, draw, help, quit";
const SITE: &str = "site number, easting, northing";
const LEG: &str = "easting and northing of the start, then of the end";
const CORNER: &str = "easting, northing";
/// What a reading ends with.
const METRES: &[u8] = b"m";
const EXAMPLES: &str = "-1234.5m or 0x7FC00001m";
/// What is shown of a word that is not understood.
const SHOWN: usize = 24;

/// None for a line that is empty or a comment.
pub fn parse(line: &[u8]) -> Result<Option<Said>, Complaint> {
    // What a comment says is nobody's matter, whatever its bytes.
    let text = line.split(|byte| *byte == b'#').next().unwrap_or_default();
    let words: Vec<&[u8]> = text
        .split(|byte| byte.is_ascii_whitespace())
        .filter(|word| !word.is_empty())
        .collect();
    let Some((first, operands)) = words.split_first() else {
        return Ok(None);
    };
    match act(first, operands)? {
        Some(act) => Ok(Some(Said::Act(act))),
        None => command(first, operands).map(|command| Some(Said::Command(command))),
    }
}

/// None for a word that may be a command's.
fn act(first: &[u8], operands: &[&[u8]]) -> Result<Option<Act>, Complaint> {
    let plain = [
        Act::Sites,
        Act::Standing,
        Act::Touring,
        Act::Tree,
        Act::Save,
        Act::Help,
        Act::Quit,
    ];
    if first == b"draw" {
        return match operands {
            [file] if *file != b"-" => Ok(Some(Act::draw(file))),
            _ => Err(Complaint::Words("draw takes a file, and nothing else")),
        };
    }
    let Some(act) = plain.into_iter().find(|act| act.word().as_bytes() == first) else {
        return Ok(None);
    };
    let [] = counted(act.word(), "nothing", operands)?;
    Ok(Some(act))
}

fn command(first: &[u8], operands: &[&[u8]]) -> Result<Command, Complaint> {
    match first {
        b"add" => site("add", operands).map(|(number, place)| Command::Add(number, place)),
        b"move" => site("move", operands).map(|(number, place)| Command::Move(number, place)),
        b"leg" => leg("leg", operands).map(Command::List),
        b"stand" => leg("stand", operands).map(Command::Stand),
        b"tour" => corner("tour", operands).map(Command::Begin),
        b"corner" => corner("corner", operands).map(Command::Corner),
        b"remove" => {
            let [number] = counted("remove", "site number", operands)?;
            site_number(number).map(Command::Remove)
        }
        b"print" => {
            let [] = counted("print", "nothing", operands)?;
            Ok(Command::Print)
        }
        _ => Err(Complaint::UnknownWord(shown(first))),
    }
}

fn counted<'a, const N: usize>(
    name: &'static str,
    wanted: &'static str,
    operands: &[&'a [u8]],
) -> Result<[&'a [u8]; N], Complaint> {
    let found = operands.len();
    <[&[u8]; N]>::try_from(operands).map_err(|_| Complaint::Count(name, wanted, N, found))
}

fn site(name: &'static str, operands: &[&[u8]]) -> Result<(u16, Place), Complaint> {
    let [number, east, north] = counted(name, SITE, operands)?;
    Ok((site_number(number)?, place(east, north)?))
}

/// Steps, or readings where both words have an m behind them.
fn place(east: &[u8], north: &[u8]) -> Result<Place, Complaint> {
    match (is_metres(east), is_metres(north)) {
        (false, false) => position(east, north).map(Place::Steps),
        (true, true) => Ok(Place::Readings(Readings {
            east: reading(east)?,
            north: reading(north)?,
        })),
        _ => Err(Complaint::OneReading(shown(east), shown(north))),
    }
}

fn is_metres(word: &[u8]) -> bool {
    word.ends_with(METRES)
}

fn reading(word: &[u8]) -> Result<Reading, Complaint> {
    let number = word.strip_suffix(METRES).unwrap_or(word);
    Reading::parse(number).map_err(|misread| match misread {
        Misread::Form => Complaint::NotAReading(shown(word)),
        Misread::TooLarge => Complaint::ReadingTooLarge(shown(word)),
    })
}

fn leg(name: &'static str, operands: &[&[u8]]) -> Result<Leg, Complaint> {
    let [s_east, s_north, e_east, e_north] = counted(name, LEG, operands)?;
    Ok(Leg {
        s: position(s_east, s_north)?,
        e: position(e_east, e_north)?,
    })
}

fn corner(name: &'static str, operands: &[&[u8]]) -> Result<Position, Complaint> {
    let [east, north] = counted(name, CORNER, operands)?;
    position(east, north)
}

fn position(east: &[u8], north: &[u8]) -> Result<Position, Complaint> {
    Ok(Position {
        east: number(east, Complaint::Coordinate)?,
        north: number(north, Complaint::Coordinate)?,
    })
}

fn site_number(word: &[u8]) -> Result<u16, Complaint> {
    number(word, Complaint::SiteNumber)
}

/// A whole number that fits its word; `misfit` names one that does not.
fn number<T: TryFrom<i64>>(word: &[u8], misfit: fn(String) -> Complaint) -> Result<T, Complaint> {
    let digits = match word {
        [b'-' | b'+', digits @ ..] => digits,
        digits => digits,
    };
    if digits.is_empty() || !digits.iter().all(u8::is_ascii_digit) {
        return Err(Complaint::NotANumber(shown(word)));
    }
    let text = std::str::from_utf8(word).ok();
    let value = text.and_then(|text| text.parse::<i64>().ok());
    let fitting = value.and_then(|value| T::try_from(value).ok());
    fitting.ok_or_else(|| misfit(shown(word)))
}

/// Printable and short, whatever the bytes: they may go to a terminal.
fn shown(word: &[u8]) -> String {
    let start = word[..word.len().min(SHOWN)].escape_ascii();
    let rest = if word.len() > SHOWN { "..." } else { "" };
    format!("{start}{rest}")
}

impl fmt::Display for Complaint {
    fn fmt(&self, f: &mut fmt::Formatter) -> fmt::Result {
        match self {
            Complaint::UnknownWord(word) => write!(f, "unknown word \"{word}\" (known: {KNOWN})"),
            Complaint::Count(name, wanted, count, found) => {
                let s = if *count == 1 { "" } else { "s" };
                write!(f, "{name} takes {count} number{s} ({wanted}), not {found}")
            }
            Complaint::NotANumber(word) => write!(f, "\"{word}\" is not a whole number"),
            Complaint::SiteNumber(word) => {
                write!(f, "site number \"{word}\" is not within 1 to 65,535")
            }
            Complaint::Coordinate(word) => {
                write!(f, "coordinate \"{word}\" is off the grid, {}", grid::span())
            }
            Complaint::NotAReading(word) => {
                write!(f, "\"{word}\" is not a reading, such as {EXAMPLES}")
            }
            Complaint::ReadingTooLarge(word) => {
                write!(f, "reading \"{word}\" is too large for a 32-bit number")
            }
            Complaint::OneReading(east, north) => write!(
                f,
                "easting \"{east}\" and northing \"{north}\" have to be both steps or both readings, \
                 such as {EXAMPLES}"
            ),
            Complaint::TooLong(most) => write!(f, "longer than {most} bytes"),
            Complaint::Words(words) => write!(f, "{words}"),
            Complaint::NoBytes(word) => {
                write!(f, "{word} has no command bytes: stops-text does it itself")
            }
            Complaint::NoTable => write!(f, "save needs --table FILE"),
        }
    }
}

#[cfg(test)]
mod tests {
    use super::*;

    const fn at(east: i16, north: i16) -> Position {
        Position { east, north }
    }

    fn good(line: &str) -> Option<Command> {
        match parse(line.as_bytes()).unwrap() {
            Some(Said::Command(command)) => Some(command),
            Some(Said::Act(act)) => panic!("{act:?}"),
            None => None,
        }
    }

    fn bad(line: &[u8]) -> String {
        parse(line).unwrap_err().to_string()
    }

    #[test]
    fn every_command() {
        let place = Place::Steps(at(120, -35));
        let leg = Leg {
            s: at(0, -1),
            e: at(10, 2),
        };
        assert_eq!(good("add 7 120 -35"), Some(Command::Add(7, place)));
        assert_eq!(good("move 7 120 -35"), Some(Command::Move(7, place)));
        assert_eq!(good("remove 7"), Some(Command::Remove(7)));
        assert_eq!(good("leg 0 -1 10 2"), Some(Command::List(leg)));
        assert_eq!(good("stand 0 -1 10 2"), Some(Command::Stand(leg)));
        assert_eq!(good("print"), Some(Command::Print));
        assert_eq!(good("tour 0 -1"), Some(Command::Begin(leg.s)));
        assert_eq!(good("corner 10 2"), Some(Command::Corner(leg.e)));
    }

    #[test]
    fn every_act() {
        for act in [
            Act::Sites,
            Act::Standing,
            Act::Touring,
            Act::Tree,
            Act::Save,
            Act::Help,
            Act::Quit,
        ] {
            let word = act.word();
            assert_eq!(parse(word.as_bytes()), Ok(Some(Said::Act(act))));
            let more = format!("{word} takes 0 numbers (nothing), not 1");
            assert_eq!(bad(format!("{word} x").as_bytes()), more);
        }
        let draw = Act::Draw("a.svg".into());
        assert_eq!(parse(b"draw a.svg # so"), Ok(Some(Said::Act(draw))));
        assert_eq!(bad(b"draw"), "draw takes a file, and nothing else");
        assert_eq!(bad(b"draw a b"), "draw takes a file, and nothing else");
    }

    #[test]
    fn blanks_signs_and_comments() {
        assert_eq!(good("\t remove   +07 \r"), Some(Command::Remove(7)));
        assert_eq!(good("remove 7# the old one"), Some(Command::Remove(7)));
        assert_eq!(good(" # add 1 2 3"), None);
        assert_eq!(good(" \t\r"), None);
        assert_eq!(good(""), None);
        let print = Some(Said::Command(Command::Print));
        assert_eq!(parse(b"print # caf\xe9 \0\xff"), Ok(print));
    }

    #[test]
    fn the_widest_words() {
        let place = Place::Steps(at(-32_768, 32_767));
        let added = Command::Add(65_535, place);
        assert_eq!(good("add 65535 -32768 32767"), Some(added));
        assert_eq!(good("remove 0"), Some(Command::Remove(0)));
    }

    #[test]
    fn readings() {
        for (words, east, north) in [
            ("1234.5m -99.9m", 0x449A_5000, 0xC2C7_CCCD),
            ("+5m -0m", 0x40A0_0000, 0x8000_0000),
            ("0x7FC00001m 0xff800000m", 0x7FC0_0001, 0xFF80_0000),
            ("100m 0x42C80000m # step 1 1", 0x42C8_0000, 0x42C8_0000),
        ] {
            let [east, north] = [east, north].map(Reading);
            let place = Place::Readings(Readings { east, north });
            let added = good(&format!("add 7 {words}"));
            assert_eq!(added, Some(Command::Add(7, place)), "{words}");
            let moved = good(&format!("\tmove +07 {words}\r"));
            assert_eq!(moved, Some(Command::Move(7, place)), "{words}");
        }
    }

    #[test]
    fn wrong_readings() {
        let form = "is not a reading, such as -1234.5m or 0x7FC00001m";
        for word in [
            "m",
            "-m",
            ".m",
            "1.2.3m",
            "1e3m",
            "infm",
            "nanm",
            "-infinitym",
            "0x7FC0000m",
            "1mm",
            "1,5m",
            "0X7FC00001m",
        ] {
            let complaint = format!("\"{word}\" {form}");
            assert_eq!(bad(format!("add 1 {word} 0m").as_bytes()), complaint);
            assert_eq!(bad(format!("move 1 0m {word}").as_bytes()), complaint);
        }
        assert_eq!(bad(b"add 1 \xffm 0m"), format!("\"\\xffm\" {form}"));
        let large = "340282360000000000000000000000000000000m";
        for (line, shown) in [
            (format!("add 1 {large} 0m"), "340282360000000000000000..."),
            (format!("move 1 0m -{large}"), "-34028236000000000000000..."),
        ] {
            let complaint = format!("reading \"{shown}\" is too large for a 32-bit number");
            assert_eq!(bad(line.as_bytes()), complaint);
        }
    }

    #[test]
    fn one_reading_alone() {
        for (east, north) in [("1234.5m", "-1"), ("12", "-99.9m"), ("0x7FC00001m", "0")] {
            let complaint = format!(
                "easting \"{east}\" and northing \"{north}\" have to be both steps or both readings, \
                 such as -1234.5m or 0x7FC00001m"
            );
            assert_eq!(bad(format!("add 7 {east} {north}").as_bytes()), complaint);
            assert_eq!(bad(format!("move 7 {east} {north}").as_bytes()), complaint);
        }
        // An m with a blank before it is a word.
        let count = format!("add takes 3 numbers ({SITE}), not 5");
        assert_eq!(bad(b"add 7 12 m 13 m"), count);
    }

    /// A leg and a corner are steps.
    #[test]
    fn readings_are_of_sites_alone() {
        for line in [
            "leg 1m 0m 2m 0m",
            "stand 1m 0 2 0",
            "tour 1m 0m",
            "corner 1m 0m",
        ] {
            assert_eq!(
                bad(line.as_bytes()),
                "\"1m\" is not a whole number",
                "{line}"
            );
        }
        assert_eq!(bad(b"remove 7m"), "\"7m\" is not a whole number");
        assert_eq!(bad(b"add 7m 1m 1m"), "\"7m\" is not a whole number");
    }

    #[test]
    fn unknown_words() {
        let known = format!("(known: {KNOWN})");
        for (line, word) in [
            (&b"ad 1 2 3"[..], "ad"),
            (b"Add 1 2 3", "Add"),
            (b"\xff\x1b[2J", "\\xff\\x1b[2J"),
        ] {
            assert_eq!(bad(line), format!("unknown word \"{word}\" {known}"));
        }
    }

    #[test]
    fn wrong_counts() {
        let ends = "easting and northing of the start, then of the end";
        for (line, complaint) in [
            ("add 1 2", format!("add takes 3 numbers ({SITE}), not 2")),
            (
                "move 1 2 3 4",
                format!("move takes 3 numbers ({SITE}), not 4"),
            ),
            (
                "remove",
                "remove takes 1 number (site number), not 0".into(),
            ),
            ("print 1", "print takes 0 numbers (nothing), not 1".into()),
            ("leg 0 0 10", format!("leg takes 4 numbers ({ends}), not 3")),
            ("tour", format!("tour takes 2 numbers ({CORNER}), not 0")),
            (
                "corner 1 2 3",
                format!("corner takes 2 numbers ({CORNER}), not 3"),
            ),
        ] {
            assert_eq!(bad(line.as_bytes()), complaint);
        }
    }

    #[test]
    fn wrong_numbers() {
        for (line, complaint) in [
            ("add 1 2 3.5", "\"3.5\" is not a whole number"),
            ("add 1 - 3", "\"-\" is not a whole number"),
            (
                "remove 65536",
                "site number \"65536\" is not within 1 to 65,535",
            ),
            ("remove -1", "site number \"-1\" is not within 1 to 65,535"),
            (
                "stand 0 0 -32769 0",
                "coordinate \"-32769\" is off the grid, -12,000 to 12,000",
            ),
            (
                "move 1 32768 0",
                "coordinate \"32768\" is off the grid, -12,000 to 12,000",
            ),
            (
                "corner 0 40000",
                "coordinate \"40000\" is off the grid, -12,000 to 12,000",
            ),
        ] {
            assert_eq!(bad(line.as_bytes()), complaint);
        }
        let nines = "9".repeat(24);
        let long = bad(format!("remove {nines}{nines}").as_bytes());
        assert_eq!(
            long,
            format!("site number \"{nines}...\" is not within 1 to 65,535")
        );
    }
}
