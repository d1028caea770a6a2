//! The batch program's output in words.

use crate::command::Command;
use crate::desk::Desk;
use crate::input::Input;
use crate::record::Record;
use crate::status::{Failure, Met};
use crate::teller::{self, Teller};
use crate::words::{self, Name};
use std::io::Write;

const END_MARK: u8 = 0x2E;

/// What comes next in the output, with its length.
enum Part {
    Record(Record, usize),
    End(u32),
    /// More bytes are needed.
    Cut,
}

/// Tells every record and the end. `commands` are the bytes that the batch program was fed; where
/// they are known, lists get their points, and there must be a record for each.
pub fn decode<W: Write, E: Write>(
    mut input: Input,
    commands: Option<&[u8]>,
    plain: bool,
    desk: &mut Desk<W, E>,
) -> Result<Met, Failure> {
    let mut decoder = Decoder::new(commands, plain);
    while !decoder.feed(input.next()?, desk)? {
        desk.console.progress(input.read);
        if desk.out.is_closed() {
            return Ok(decoder.met());
        }
    }
    match decoder.reason {
        Some(0) => Ok(decoder.met()),
        Some(reason) => Err(Failure::Ended(reason)),
        None => Err(decoder.fault("the output is cut short: no end mark (2E and a reason)")),
    }
}

struct Decoder<'a> {
    /// Read and not yet told.
    held: Vec<u8>,
    /// Bytes told.
    told: u64,
    commands: Option<Commands<'a>>,
    /// Records told.
    records: u64,
    plain: bool,
    teller: Teller,
    /// Of the end mark.
    reason: Option<u32>,
}

impl<'a> Decoder<'a> {
    fn new(commands: Option<&'a [u8]>, plain: bool) -> Self {
        Decoder {
            held: Vec::new(),
            told: 0,
            commands: commands.map(|left| Commands { left, answered: 0 }),
            records: 0,
            plain,
            teller: Teller::default(),
            reason: None,
        }
    }

    fn met(&self) -> Met {
        Met {
            refusal: self.teller.refused,
            ..Met::default()
        }
    }

    fn fault(&self, why: impl std::fmt::Display) -> Failure {
        Failure::Undecodable(self.told, why.to_string())
    }

    /// Tells what is whole by now. True at the end of the input, which an empty piece is.
    fn feed<W: Write, E: Write>(
        &mut self,
        piece: &[u8],
        desk: &mut Desk<W, E>,
    ) -> Result<bool, Failure> {
        self.held.extend(piece);
        let mut at = 0;
        let result = self.tell_parts(&mut at, desk);
        self.held.drain(..at);
        // What is told stands before the message about what cannot be.
        desk.flush()?;
        result.map(|()| piece.is_empty())
    }

    fn tell_parts<W: Write, E: Write>(
        &mut self,
        at: &mut usize,
        desk: &mut Desk<W, E>,
    ) -> Result<(), Failure> {
        while *at < self.held.len() {
            if self.reason.is_some() {
                return Err(self.fault("something follows the end mark"));
            }
            let part = part(&self.held[*at..]).map_err(|why| self.fault(why))?;
            let length = match part {
                Part::Cut => return Ok(()),
                Part::Record(record, length) => {
                    self.tell(&record, desk)?;
                    length
                }
                Part::End(reason) => {
                    self.close(reason)?;
                    self.reason = Some(reason);
                    desk.end(reason)?;
                    2
                }
            };
            *at += length;
            self.told += length as u64;
        }
        Ok(())
    }

    fn tell<W: Write, E: Write>(
        &mut self,
        record: &Record,
        desk: &mut Desk<W, E>,
    ) -> Result<(), Failure> {
        let command = match &mut self.commands {
            None => None,
            Some(commands) => {
                let next = commands.next();
                let command = next.ok_or_else(|| {
                    let answered = self.records;
                    self.fault(format_args!(
                        "a record too many: {answered} commands were given"
                    ))
                })?;
                if !teller::answers(record, &command) {
                    return Err(self.fault("the record does not answer its command"));
                }
                Some(command)
            }
        };
        self.records += 1;
        let name = match self.plain {
            true => Name::Plain,
            false => Name::Command(self.records),
        };
        let out = &mut desk.out;
        let told = self.teller.tell(name, command.as_ref(), record, out);
        told.map_err(Failure::writing)
    }

    /// Where the commands are known, those that are left must be what the reason says.
    fn close(&self, reason: u32) -> Result<(), Failure> {
        match &self.commands {
            Some(commands) if !commands.end_with(reason) => {
                let (given, at) = (self.records, commands.answered);
                Err(self.fault(format_args!(
                    "the end does not fit: after {given} records the commands go on at their byte {at}"
                )))
            }
            _ => Ok(()),
        }
    }
}

/// The commands that have no record yet.
struct Commands<'a> {
    left: &'a [u8],
    /// Bytes of those that have one.
    answered: usize,
}

impl Commands<'_> {
    fn next(&mut self) -> Option<Command> {
        let (command, length) = Command::read(self.left)?;
        self.left = &self.left[length..];
        self.answered += length;
        Some(command)
    }

    fn end_with(&self, reason: u32) -> bool {
        let whole = Command::read(self.left).is_some();
        let known = self.left.first().map(|mark| Command::is_mark(*mark));
        match reason {
            0 => self.left.is_empty(),
            66 => known == Some(false),
            67 => known == Some(true) && !whole,
            68 => whole,
            _ => self.answered == 0,
        }
    }
}

fn part(bytes: &[u8]) -> Result<Part, String> {
    match *bytes {
        [END_MARK] => Ok(Part::Cut),
        [END_MARK, reason, ..] if words::is_reason(reason.into()) => Ok(Part::End(reason.into())),
        [END_MARK, number, ..] => Err(format!("no reason has the number {number}")),
        _ => match Record::read(bytes) {
            Ok(Some((record, length))) => Ok(Part::Record(record, length)),
            Ok(None) => Ok(Part::Cut),
            Err(fault) => Err(fault.to_string()),
        },
    }
}
