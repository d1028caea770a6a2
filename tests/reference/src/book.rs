//! The site book of document 01 ("The site book", "Causes and numbers"), with the tour of document
//! 02, C-13, and the readings of C-15.
//!
//! The book has no table, so it never answers 65 or 69; a table of wrong length is not its matter.

use crate::command::{Command, Unread};
use crate::grid::{Leg, MOST_SITES, Position, REPORT_LEN, Site, WORK_LEN};
use crate::record::Record;
use crate::split::Entry;
use crate::{grid, hull, split};
use std::collections::BTreeMap;

pub const ALL_USED: u8 = 0;
pub const WRONG_LENGTH: u8 = 64;
pub const UNKNOWN_COMMAND: u8 = 66;
pub const CUT_COMMAND: u8 = 67;
pub const NO_ROOM: u8 = 68;

/// Up to here lists are taken from the definition, above from the hull.
pub const FEW_SITES: usize = 16;

/// The refusals with their numbers.
#[derive(Clone, Copy, Debug, PartialEq, Eq)]
pub enum Cause {
    NumberZero = 1,
    OffGrid = 2,
    NumberHeld = 3,
    NumberNotHeld = 4,
    TableFull = 5,
    NoSite = 6,
    NoStandingLeg = 7,
    NoTour = 8,
    /// Document 02, C-15.
    NotFinite = 11,
}

/// Every number that a refusal has.
pub const REFUSALS: [u8; 9] = [1, 2, 3, 4, 5, 6, 7, 8, 11];

#[derive(Clone, Debug, PartialEq, Eq)]
pub struct Reply {
    pub reason: u8,
    pub used: usize,
    pub written: usize,
    /// The written report bytes.
    pub report: Vec<u8>,
}

/// A tour under way.
#[derive(Clone, Copy, Debug, PartialEq, Eq)]
pub struct Tour {
    /// The last one.
    pub corner: Position,
    /// "the site that ended the previous leg's whole list in this tour"; none before its first leg.
    pub remembered: Option<u16>,
}

impl Tour {
    pub fn begun(corner: Position) -> Self {
        Tour {
            corner,
            remembered: None,
        }
    }

    /// "the leg from the last corner to this one"
    pub fn leg_to(&self, corner: Position) -> Leg {
        Leg {
            s: self.corner,
            e: corner,
        }
    }
}

/// Lines by number, the standing leg or none, and the tour or none.
#[derive(Clone, Debug, Default, PartialEq, Eq)]
pub struct Book {
    pub lines: BTreeMap<u16, Position>,
    pub leg: Option<Leg>,
    pub tour: Option<Tour>,
}

impl Book {
    /// As at laying out.
    pub fn new() -> Self {
        Book::default()
    }

    /// With these lines and this leg, and without a tour.
    pub fn of(sites: &[Site], leg: Option<Leg>) -> Self {
        let line = |site: &Site| (site.number, site.position);
        let lines = sites.iter().map(line).collect();
        let tour = None;
        Book { lines, leg, tour }
    }

    pub fn sites(&self) -> Vec<Site> {
        let site = |(&number, &position)| Site { number, position };
        self.lines.iter().map(site).collect()
    }

    /// One batch call: its commands and the lengths of its work and report buffers.
    pub fn call(&mut self, commands: &[u8], work_len: usize, report_len: usize) -> Reply {
        let (mut used, mut report) = (0, Vec::new());
        let reason = if work_len != WORK_LEN {
            WRONG_LENGTH
        } else {
            loop {
                if used == commands.len() {
                    break ALL_USED;
                }
                match self.step(&commands[used..], report_len - report.len()) {
                    Err(reason) => break reason,
                    Ok((length, record)) => {
                        used += length;
                        report.extend(record);
                    }
                }
            }
        };
        let written = report.len();
        Reply {
            reason,
            used,
            written,
            report,
        }
    }

    /// A call with the right work buffer and a report buffer like the batch program's.
    pub fn serve(&mut self, commands: &[u8]) -> Reply {
        self.call(commands, WORK_LEN, REPORT_LEN)
    }

    /// The records of a call that has room for all of them.
    pub fn records(&mut self, commands: &[Vec<u8>]) -> Vec<Record> {
        let reply = self.call(&commands.concat(), WORK_LEN, usize::MAX);
        assert_eq!(reply.reason, ALL_USED, "each command is whole and known");
        Record::read_all(&reply.report).expect("a report consists of whole records")
    }

    /// Does the first command: its length and its record, or the reason that ends the call.
    fn step(&mut self, commands: &[u8], room: usize) -> Result<(usize, Vec<u8>), u8> {
        let (command, length) = Command::read(commands).map_err(|unread| match unread {
            Unread::Unknown => UNKNOWN_COMMAND,
            Unread::Cut => CUT_COMMAND,
        })?;
        let refusal = self.refusal(&command);
        let record = match refusal {
            Some(cause) => Record::Refused(cause as u8),
            None => self.record(&command),
        };
        let record = record.bytes();
        if record.len() > room {
            return Err(NO_ROOM);
        }
        if refusal.is_none() {
            self.carry_out(&command);
        }
        Ok((length, record))
    }

    /// The first cause met of those in the command's row.
    fn refusal(&self, command: &Command) -> Option<Cause> {
        let met = |cause: &Cause| self.meets(*cause, command);
        tests_in_order(command).iter().copied().find(met)
    }

    fn meets(&self, cause: Cause, command: &Command) -> bool {
        let held = |number: u16| self.lines.contains_key(&number);
        match cause {
            Cause::NumberZero => command.number() == Some(0),
            Cause::OffGrid => !command.coordinates().into_iter().all(grid::on_axis),
            Cause::NumberHeld => command.number().is_some_and(held),
            Cause::NumberNotHeld => !command.number().is_some_and(held),
            Cause::TableFull => self.lines.len() >= MOST_SITES,
            Cause::NoSite => self.lines.is_empty(),
            Cause::NoStandingLeg => self.leg.is_none(),
            Cause::NoTour => self.tour.is_none(),
            Cause::NotFinite => command.readings().is_some_and(|r| !r.are_finite()),
        }
    }

    /// The record of a command that no test refuses.
    fn record(&self, command: &Command) -> Record {
        match *command {
            Command::Add(_) | Command::Remove(_) | Command::Move(_) => Record::Accepted,
            Command::AddReadings(..) | Command::MoveReadings(..) => Record::Accepted,
            Command::Stand(_) | Command::Begin(_) => Record::Accepted,
            Command::List(leg) => Record::List(self.split_list(&leg)),
            Command::Print => {
                let leg = self.leg.expect("test 7 asks for a standing leg");
                Record::List(self.split_list(&leg))
            }
            Command::Corner(corner) => {
                let tour = self.tour.expect("test 8 asks for a tour");
                let mut list = self.split_list(&tour.leg_to(corner));
                // "leaves out the list's first entry if that names the site ..."
                let first = list.first().map(|entry| entry.site);
                if tour.remembered.is_some() && tour.remembered == first {
                    list.remove(0);
                }
                Record::List(list)
            }
        }
    }

    fn carry_out(&mut self, command: &Command) {
        match *command {
            Command::Add(site) | Command::Move(site) => self.put(site),
            Command::AddReadings(..) | Command::MoveReadings(..) => {
                self.put(command.site().expect("test 11 asks for finite readings"));
            }
            Command::Remove(number) => {
                self.lines.remove(&number);
                self.tour = None;
            }
            Command::Stand(leg) => self.leg = Some(leg),
            Command::List(_) | Command::Print => {}
            Command::Begin(corner) => self.tour = Some(Tour::begun(corner)),
            Command::Corner(corner) => self.tour = self.tour.map(|tour| self.went_on(tour, corner)),
        }
    }

    /// Writes a line, or gives it another position.
    fn put(&mut self, site: Site) {
        self.lines.insert(site.number, site.position);
        self.tour = None;
    }

    /// The tour with this as its last corner.
    fn went_on(&self, tour: Tour, corner: Position) -> Tour {
        let whole = self.split_list(&tour.leg_to(corner));
        Tour {
            corner,
            remembered: whole.last().map(|entry| entry.site),
        }
    }

    /// The split list of a leg over the lines.
    pub fn split_list(&self, leg: &Leg) -> Vec<Entry> {
        let sites = self.sites();
        if sites.len() <= FEW_SITES {
            split::split_list(leg, &sites)
        } else {
            hull::split_list(leg, &sites)
        }
    }
}

/// The last column of document 01's table of commands; of 42 and 43 what document 02, C-13, says, and
/// of 61 and 6D what C-15 says: "tested after 1 and before 2".
fn tests_in_order(command: &Command) -> &'static [Cause] {
    use Cause::*;
    match command {
        Command::Add(_) => &[NumberZero, OffGrid, NumberHeld, TableFull],
        Command::Remove(_) => &[NumberZero, NumberNotHeld],
        Command::Move(_) => &[NumberZero, OffGrid, NumberNotHeld],
        Command::List(_) => &[OffGrid, NoSite],
        Command::Stand(_) => &[OffGrid],
        Command::Print => &[NoStandingLeg, NoSite],
        Command::Begin(_) => &[OffGrid],
        Command::Corner(_) => &[NoTour, OffGrid, NoSite],
        Command::AddReadings(..) => &[NumberZero, NotFinite, OffGrid, NumberHeld, TableFull],
        Command::MoveReadings(..) => &[NumberZero, NotFinite, OffGrid, NumberNotHeld],
    }
}
