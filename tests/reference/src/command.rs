//! The six commands of document 01 ("Buffers and batches"), those of document 02, C-13 and C-15, and
//! their bytes.

use crate::grid::{Leg, Position, Site};
use crate::reading::{Reading, Readings};

pub const ADD: u8 = 0x41;
pub const REMOVE: u8 = 0x44;
pub const MOVE: u8 = 0x4D;
pub const LIST: u8 = 0x4C;
pub const STAND: u8 = 0x53;
pub const PRINT: u8 = 0x50;
/// Document 02, C-13.
pub const BEGIN: u8 = 0x42;
pub const CORNER: u8 = 0x43;
/// Document 02, C-15.
pub const ADD_READINGS: u8 = 0x61;
pub const MOVE_READINGS: u8 = 0x6D;

/// Every mark.
pub const MARKS: [u8; 10] = [
    ADD,
    REMOVE,
    MOVE,
    LIST,
    STAND,
    PRINT,
    BEGIN,
    CORNER,
    ADD_READINGS,
    MOVE_READINGS,
];

#[derive(Clone, Copy, Debug, PartialEq, Eq)]
pub enum Command {
    Add(Site),
    Remove(u16),
    Move(Site),
    List(Leg),
    Stand(Leg),
    Print,
    /// Begins a tour there.
    Begin(Position),
    /// Lists the tour's leg from its last corner to there.
    Corner(Position),
    /// "Commands 61 and 6D do what 41 and 4D do", with readings for the position.
    AddReadings(u16, Readings),
    MoveReadings(u16, Readings),
}

/// Why no command can be read.
#[derive(Clone, Copy, Debug, PartialEq, Eq)]
pub enum Unread {
    Unknown,
    Cut,
}

impl Command {
    /// The site number among the operands.
    pub fn number(&self) -> Option<u16> {
        match *self {
            Command::Add(site) | Command::Move(site) => Some(site.number),
            Command::AddReadings(number, _) | Command::MoveReadings(number, _) => Some(number),
            Command::Remove(number) => Some(number),
            Command::List(_) | Command::Stand(_) | Command::Print => None,
            Command::Begin(_) | Command::Corner(_) => None,
        }
    }

    /// The readings among the operands.
    pub fn readings(&self) -> Option<Readings> {
        match *self {
            Command::AddReadings(_, readings) | Command::MoveReadings(_, readings) => {
                Some(readings)
            }
            _ => None,
        }
    }

    /// The site that is added or moved, there where it will stand; none where a reading is not finite.
    pub fn site(&self) -> Option<Site> {
        match *self {
            Command::Add(site) | Command::Move(site) => Some(site),
            Command::AddReadings(number, readings) | Command::MoveReadings(number, readings) => {
                let position = readings.position()?;
                Some(Site { number, position })
            }
            _ => None,
        }
    }

    /// The coordinates among the operands; of readings the steps of those that are finite.
    pub fn coordinates(&self) -> Vec<i64> {
        let of = |position: Position| [position.east, position.north];
        match *self {
            Command::Add(site) | Command::Move(site) => of(site.position).to_vec(),
            Command::AddReadings(_, readings) | Command::MoveReadings(_, readings) => {
                let steps = [readings.east, readings.north].map(Reading::coordinate);
                steps.into_iter().flatten().collect()
            }
            Command::List(leg) | Command::Stand(leg) => [of(leg.s), of(leg.e)].concat(),
            Command::Begin(position) | Command::Corner(position) => of(position).to_vec(),
            Command::Remove(_) | Command::Print => vec![],
        }
    }

    /// The first command and its length in bytes; the mark is judged before the length.
    pub fn read(bytes: &[u8]) -> Result<(Command, usize), Unread> {
        let (mark, operands) = bytes.split_first().ok_or(Unread::Cut)?;
        let length = operand_length(*mark).ok_or(Unread::Unknown)?;
        let operands = operands.get(..length).ok_or(Unread::Cut)?;
        Ok((from_operands(*mark, operands), 1 + length))
    }
}

fn operand_length(mark: u8) -> Option<usize> {
    match mark {
        ADD | MOVE => Some(6),
        REMOVE => Some(2),
        LIST | STAND => Some(8),
        BEGIN | CORNER => Some(4),
        ADD_READINGS | MOVE_READINGS => Some(10),
        PRINT => Some(0),
        _ => None,
    }
}

fn from_operands(mark: u8, operands: &[u8]) -> Command {
    let word = |at: usize| [operands[at], operands[at + 1]];
    let number = || u16::from_le_bytes(word(0));
    let coordinate = |at: usize| i64::from(i16::from_le_bytes(word(at)));
    let position = |at: usize| Position::new(coordinate(at), coordinate(at + 2));
    let reading = |at: usize| {
        let ([a, b], [c, d]) = (word(at), word(at + 2));
        Reading(u32::from_le_bytes([a, b, c, d]))
    };
    let readings = || Readings::new(reading(2), reading(6));
    let site = || Site {
        number: number(),
        position: position(2),
    };
    let leg = || Leg {
        s: position(0),
        e: position(4),
    };
    match mark {
        ADD => Command::Add(site()),
        REMOVE => Command::Remove(number()),
        MOVE => Command::Move(site()),
        LIST => Command::List(leg()),
        STAND => Command::Stand(leg()),
        PRINT => Command::Print,
        BEGIN => Command::Begin(position(0)),
        CORNER => Command::Corner(position(0)),
        ADD_READINGS => Command::AddReadings(number(), readings()),
        MOVE_READINGS => Command::MoveReadings(number(), readings()),
        _ => unreachable!("a mark with an operand length is a command"),
    }
}

pub fn add(site: Site) -> Vec<u8> {
    site_operands(ADD, site)
}

pub fn remove(number: u16) -> Vec<u8> {
    let [low, high] = number.to_le_bytes();
    vec![REMOVE, low, high]
}

/// Named for what it does, since `move` is a keyword.
pub fn move_site(site: Site) -> Vec<u8> {
    site_operands(MOVE, site)
}

pub fn list(leg: Leg) -> Vec<u8> {
    leg_operands(LIST, leg)
}

pub fn stand(leg: Leg) -> Vec<u8> {
    leg_operands(STAND, leg)
}

pub fn print() -> Vec<u8> {
    vec![PRINT]
}

pub fn begin(position: Position) -> Vec<u8> {
    [vec![BEGIN], position_bytes(position)].concat()
}

pub fn corner(position: Position) -> Vec<u8> {
    [vec![CORNER], position_bytes(position)].concat()
}

pub fn add_readings(number: u16, readings: Readings) -> Vec<u8> {
    reading_operands(ADD_READINGS, number, readings)
}

pub fn move_readings(number: u16, readings: Readings) -> Vec<u8> {
    reading_operands(MOVE_READINGS, number, readings)
}

fn reading_operands(mark: u8, number: u16, readings: Readings) -> Vec<u8> {
    let mut bytes = vec![mark];
    bytes.extend(number.to_le_bytes());
    bytes.extend(readings.east.0.to_le_bytes());
    bytes.extend(readings.north.0.to_le_bytes());
    bytes
}

fn site_operands(mark: u8, site: Site) -> Vec<u8> {
    let mut bytes = vec![mark];
    bytes.extend(site.number.to_le_bytes());
    bytes.extend(position_bytes(site.position));
    bytes
}

fn leg_operands(mark: u8, leg: Leg) -> Vec<u8> {
    let mut bytes = vec![mark];
    bytes.extend(position_bytes(leg.s));
    bytes.extend(position_bytes(leg.e));
    bytes
}

fn position_bytes(position: Position) -> Vec<u8> {
    let word = |coordinate: i64| i16::try_from(coordinate).expect("a coordinate has 16 bits");
    let words = [word(position.east), word(position.north)];
    words.iter().flat_map(|word| word.to_le_bytes()).collect()
}
