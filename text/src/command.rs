//! The commands of documents 01 and 02 and their bytes.

use crate::grid::{Leg, Position, Site};
use crate::reading::{Reading, Readings};
use std::fmt;

const ADD: u8 = 0x41;
const REMOVE: u8 = 0x44;
const MOVE: u8 = 0x4D;
const LIST: u8 = 0x4C;
const STAND: u8 = 0x53;
const PRINT: u8 = 0x50;
const BEGIN: u8 = 0x42;
const CORNER: u8 = 0x43;
const ADD_READINGS: u8 = 0x61;
const MOVE_READINGS: u8 = 0x6D;
const MARKS: [u8; 10] = [
    ADD,
    REMOVE,
    MOVE,
    LIST,
    STAND,
    PRINT,
    BEGIN,
    CORNER,
    ADD_READINGS,
    MOVE_READINGS,
];

/// Where a site is put: the position of a command.
#[derive(Clone, Copy, Debug, PartialEq, Eq)]
pub enum Place {
    Steps(Position),
    Readings(Readings),
}

#[derive(Clone, Copy, Debug, PartialEq, Eq)]
pub enum Command {
    Add(u16, Place),
    Remove(u16),
    Move(u16, Place),
    List(Leg),
    Stand(Leg),
    Print,
    /// A tour, at its first corner.
    Begin(Position),
    /// The tour's next corner.
    Corner(Position),
}

impl Command {
    pub fn add(site: Site) -> Self {
        Command::Add(site.number, Place::Steps(site.at))
    }

    /// Those among its operands.
    pub fn readings(&self) -> Option<Readings> {
        match *self {
            Command::Add(_, Place::Readings(readings))
            | Command::Move(_, Place::Readings(readings)) => Some(readings),
            _ => None,
        }
    }

    /// Appends the command's bytes.
    pub fn write(&self, bytes: &mut Vec<u8>) {
        match *self {
            Command::Add(number, place) => put_site(bytes, [ADD, ADD_READINGS], number, place),
            Command::Remove(number) => {
                bytes.push(REMOVE);
                bytes.extend(number.to_le_bytes());
            }
            Command::Move(number, place) => put_site(bytes, [MOVE, MOVE_READINGS], number, place),
            Command::List(leg) => put_leg(bytes, LIST, leg),
            Command::Stand(leg) => put_leg(bytes, STAND, leg),
            Command::Print => bytes.push(PRINT),
            Command::Begin(at) => put_corner(bytes, BEGIN, at),
            Command::Corner(at) => put_corner(bytes, CORNER, at),
        }
    }

    /// Whether the byte begins a command.
    pub fn is_mark(byte: u8) -> bool {
        MARKS.contains(&byte)
    }

    /// The first command and its length; none where the bytes begin with no whole command.
    pub fn read(bytes: &[u8]) -> Option<(Command, usize)> {
        let (&mark, operands) = bytes.split_first()?;
        let command = match mark {
            ADD => (Command::Add(word(operands, 0)?, steps(operands)?), 7),
            REMOVE => (Command::Remove(word(operands, 0)?), 3),
            MOVE => (Command::Move(word(operands, 0)?, steps(operands)?), 7),
            LIST => (Command::List(leg(operands)?), 9),
            STAND => (Command::Stand(leg(operands)?), 9),
            PRINT => (Command::Print, 1),
            BEGIN => (Command::Begin(position(operands, 0)?), 5),
            CORNER => (Command::Corner(position(operands, 0)?), 5),
            ADD_READINGS => (Command::Add(word(operands, 0)?, readings(operands)?), 11),
            MOVE_READINGS => (Command::Move(word(operands, 0)?, readings(operands)?), 11),
            _ => return None,
        };
        Some(command)
    }
}

/// As a line says it.
impl fmt::Display for Command {
    fn fmt(&self, f: &mut fmt::Formatter) -> fmt::Result {
        let leg = |Leg { s, e }| format!("{} {} {} {}", s.east, s.north, e.east, e.north);
        match *self {
            Command::Add(number, place) => write!(f, "add {number} {place}"),
            Command::Remove(number) => write!(f, "remove {number}"),
            Command::Move(number, place) => write!(f, "move {number} {place}"),
            Command::List(asked) => write!(f, "leg {}", leg(asked)),
            Command::Stand(set) => write!(f, "stand {}", leg(set)),
            Command::Print => write!(f, "print"),
            Command::Begin(at) => write!(f, "tour {} {}", at.east, at.north),
            Command::Corner(at) => write!(f, "corner {} {}", at.east, at.north),
        }
    }
}

impl fmt::Display for Place {
    fn fmt(&self, f: &mut fmt::Formatter) -> fmt::Result {
        match self {
            Place::Steps(at) => write!(f, "{} {}", at.east, at.north),
            Place::Readings(readings) => write!(f, "{readings}"),
        }
    }
}

/// The first mark is that for steps, the second that for readings.
fn put_site(bytes: &mut Vec<u8>, marks: [u8; 2], number: u16, place: Place) {
    match place {
        Place::Steps(at) => {
            bytes.push(marks[0]);
            bytes.extend(number.to_le_bytes());
            put_position(bytes, at);
        }
        Place::Readings(Readings { east, north }) => {
            bytes.push(marks[1]);
            bytes.extend(number.to_le_bytes());
            bytes.extend(east.0.to_le_bytes());
            bytes.extend(north.0.to_le_bytes());
        }
    }
}

fn put_leg(bytes: &mut Vec<u8>, mark: u8, leg: Leg) {
    bytes.push(mark);
    put_position(bytes, leg.s);
    put_position(bytes, leg.e);
}

fn put_corner(bytes: &mut Vec<u8>, mark: u8, at: Position) {
    bytes.push(mark);
    put_position(bytes, at);
}

fn put_position(bytes: &mut Vec<u8>, position: Position) {
    bytes.extend(position.east.to_le_bytes());
    bytes.extend(position.north.to_le_bytes());
}

fn word(operands: &[u8], at: usize) -> Option<u16> {
    let bytes = operands.get(at..at + 2)?;
    Some(u16::from_le_bytes([bytes[0], bytes[1]]))
}

fn position(operands: &[u8], at: usize) -> Option<Position> {
    Some(Position {
        east: word(operands, at)?.cast_signed(),
        north: word(operands, at + 2)?.cast_signed(),
    })
}

/// Behind a site number.
fn steps(operands: &[u8]) -> Option<Place> {
    position(operands, 2).map(Place::Steps)
}

/// Behind a site number.
fn readings(operands: &[u8]) -> Option<Place> {
    Some(Place::Readings(Readings {
        east: reading(operands, 2)?,
        north: reading(operands, 6)?,
    }))
}

fn reading(operands: &[u8], at: usize) -> Option<Reading> {
    let bytes = operands.get(at..at + 4)?;
    let [a, b, c, d] = [0, 1, 2, 3].map(|i| bytes[i]);
    Some(Reading(u32::from_le_bytes([a, b, c, d])))
}

fn leg(operands: &[u8]) -> Option<Leg> {
    Some(Leg {
        s: position(operands, 0)?,
        e: position(operands, 4)?,
    })
}

#[cfg(test)]
mod tests {
    use super::*;
    use reference::random::{self, Random};

    #[test]
    fn the_second_programs_commands_come_back_byte_for_byte() {
        let mut random = Random::new(31);
        for bytes in random::commands(&mut random, 3_000) {
            let (command, length) = Command::read(&bytes).unwrap();
            let mut again = Vec::new();
            command.write(&mut again);
            assert_eq!((again, length), (bytes.clone(), bytes.len()));
        }
    }

    #[test]
    fn a_cut_or_unknown_command_is_none() {
        let mut random = Random::new(32);
        for bytes in random::commands(&mut random, 300) {
            for length in 0..bytes.len() {
                assert_eq!(Command::read(&bytes[..length]), None);
            }
        }
        assert_eq!(Command::read(&[0x45; 9]), None);
    }

    #[test]
    fn corners_come_back_byte_for_byte() {
        let at = Position {
            east: -2,
            north: 0x0304,
        };
        for (command, bytes) in [
            (Command::Begin(at), [0x42, 0xFE, 0xFF, 4, 3]),
            (Command::Corner(at), [0x43, 0xFE, 0xFF, 4, 3]),
        ] {
            let mut written = Vec::new();
            command.write(&mut written);
            assert_eq!(written, bytes);
            assert_eq!(Command::read(&bytes), Some((command, 5)));
            assert!((0..5).all(|length| Command::read(&bytes[..length]).is_none()));
        }
    }

    #[test]
    fn readings_come_back_byte_for_byte() {
        let place = Place::Readings(Readings {
            east: Reading(0x449A_5000),
            north: Reading(0xFFC0_0001),
        });
        for (command, mark, words) in [
            (
                Command::Add(258, place),
                0x61,
                "add 258 1234.5m 0xFFC00001m",
            ),
            (
                Command::Move(258, place),
                0x6D,
                "move 258 1234.5m 0xFFC00001m",
            ),
        ] {
            let bytes = [mark, 2, 1, 0, 0x50, 0x9A, 0x44, 1, 0, 0xC0, 0xFF];
            let mut written = Vec::new();
            command.write(&mut written);
            assert_eq!(written, bytes);
            assert_eq!(Command::read(&bytes), Some((command, 11)));
            assert!((0..11).all(|length| Command::read(&bytes[..length]).is_none()));
            assert_eq!(command.to_string(), words);
        }
    }

    #[test]
    fn marks_are_the_bytes_that_begin_a_command() {
        for byte in 0..=u8::MAX {
            let read = Command::read(&[byte, 0, 0, 0, 0, 0, 0, 0, 0, 0, 0]);
            assert_eq!(Command::is_mark(byte), read.is_some(), "{byte:02X}");
        }
    }
}
