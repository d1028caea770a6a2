//! Input lines as they come, piece by piece: what they ask for, in their order.

use crate::act::Act;
use crate::command::Command;
use crate::input::Input;
use crate::line::{self, Complaint, Said};
use crate::lines::{LONGEST, Line, Lines};
use crate::status::Failure;

/// A UTF-8 byte order mark, which some editors write first.
const BYTE_ORDER_MARK: &[u8] = b"\xef\xbb\xbf";

/// Each with its line's number.
pub enum Item {
    Command(u64, Command),
    Act(u64, Act),
    Bad(u64, Complaint),
}

pub struct Script {
    pub input: Input,
    lines: Lines,
    ended: bool,
}

impl Script {
    pub fn new(input: Input) -> Self {
        Script {
            input,
            lines: Lines::default(),
            ended: false,
        }
    }

    /// What the lines say that end in the next piece; none after the last.
    pub fn next(&mut self) -> Result<Option<Vec<Item>>, Failure> {
        if self.ended {
            return Ok(None);
        }
        let mut items = Vec::new();
        let take = |number, line: Line| items.extend(item(number, line));
        let piece = self.input.next()?;
        if piece.is_empty() {
            self.ended = true;
            self.lines.finish(take);
        } else {
            self.lines.feed(piece, take);
        }
        Ok(Some(items))
    }

    /// The input has ended, not a line.
    pub fn ended(&self) -> bool {
        self.ended
    }
}

/// None for a line that says nothing.
fn item(number: u64, line: Line) -> Option<Item> {
    let parsed = match line {
        Line::Whole(bytes) if number == 1 => {
            line::parse(bytes.strip_prefix(BYTE_ORDER_MARK).unwrap_or(bytes))
        }
        Line::Whole(bytes) => line::parse(bytes),
        Line::TooLong => Err(Complaint::TooLong(LONGEST)),
    };
    match parsed {
        Ok(None) => None,
        Ok(Some(Said::Command(command))) => Some(Item::Command(number, command)),
        Ok(Some(Said::Act(act))) => Some(Item::Act(number, act)),
        Err(complaint) => Some(Item::Bad(number, complaint)),
    }
}

/// The commands' bytes, one after the other.
pub fn bytes(items: &[Item]) -> Vec<u8> {
    let mut bytes = Vec::new();
    for item in items {
        if let Item::Command(_, command) = item {
            command.write(&mut bytes);
        }
    }
    bytes
}
