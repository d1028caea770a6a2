//! A listener: hears the commands and their records, and knows nothing of what a book or a table
//! keeps of a tour. So the promise of document 02, C-13, is tested on its own terms.

use crate::book::Cause;
use crate::command::Command;
use crate::fraction::Fraction;
use crate::grid::{LARGEST_DENOMINATOR, Leg, Position, Site};
use crate::hull;
use crate::record::Record;
use crate::split::{Entry, deciding_fractions, name_at};
use std::collections::BTreeMap;

const NO_TOUR: Record = Record::Refused(Cause::NoTour as u8);

/// What must not be heard.
#[derive(Clone, Copy, Debug, PartialEq, Eq)]
pub enum Fault {
    /// Commands or records that cannot be read, or not as many of each.
    Unreadable,
    /// No record of this kind answers the command.
    OtherRecord,
    /// A 43 is answered, or refused with another number than 8, without a tour; or with 8 in one.
    NotOfATour,
    /// At this fraction of the leg the tour's records name another site than 4C's list of it.
    Misnamed(Leg, Fraction),
}

/// What was heard of tours.
#[derive(Clone, Debug, Default, PartialEq, Eq)]
pub struct Told {
    pub begun: usize,
    /// Legs answered, and those among them that an earlier call's corner begins.
    pub legs: usize,
    pub across_calls: usize,
    /// Of the longest tour.
    pub most_legs: usize,
    /// Records without the first entry of the list, and later legs' records that have it.
    pub left_out: usize,
    pub changed_at_corner: usize,
    /// Counts of 0, and those that follow another.
    pub nothing: usize,
    pub nothing_again: usize,
    /// Compared.
    pub fractions: usize,
}

impl Told {
    pub fn add(&mut self, other: &Told) {
        self.begun += other.begun;
        self.legs += other.legs;
        self.across_calls += other.across_calls;
        self.most_legs = self.most_legs.max(other.most_legs);
        self.left_out += other.left_out;
        self.changed_at_corner += other.changed_at_corner;
        self.nothing += other.nothing;
        self.nothing_again += other.nothing_again;
        self.fractions += other.fractions;
    }
}

/// A tour as it was heard.
#[derive(Clone, Debug)]
struct Heard {
    /// Of the 42, or of the last 43 that was answered, and the call that it stood in.
    corner: Position,
    call: usize,
    legs: usize,
    /// "the tour's earlier records"
    records: Vec<Vec<Entry>>,
}

impl Heard {
    fn from(corner: Position, call: usize) -> Self {
        Heard {
            corner,
            call,
            legs: 0,
            records: vec![],
        }
    }

    /// The site of "the last entry in the tour's earlier records".
    fn last(&self) -> Option<u16> {
        let mut entries = self.records.iter().flatten();
        entries.next_back().map(|entry| entry.site)
    }
}

#[derive(Clone, Debug, Default)]
pub struct Listener {
    /// What the accepted 41, 44 and 4D, 61 and 6D leave.
    lines: BTreeMap<u16, Position>,
    tour: Option<Heard>,
    calls: usize,
    pub told: Told,
}

impl Listener {
    /// From laying out on.
    pub fn new() -> Self {
        Listener::default()
    }

    /// From a table on that holds these sites. Of a tour under way it is told the corner, and a
    /// record that ends with the site that was named last.
    pub fn joining(sites: &[Site], tour: Option<(Position, Option<u16>)>) -> Self {
        let record = |last: u16| vec![Entry::new(last, 0, 1)];
        let heard = |(corner, last): (Position, Option<u16>)| Heard {
            records: last.map(record).into_iter().collect(),
            ..Heard::from(corner, 0)
        };
        Listener {
            lines: sites.iter().map(|s| (s.number, s.position)).collect(),
            tour: tour.map(heard),
            ..Listener::default()
        }
    }

    /// The last corner of the tour under way, and the last site that its records named.
    pub fn tour(&self) -> Option<(Position, Option<u16>)> {
        self.tour.as_ref().map(|tour| (tour.corner, tour.last()))
    }

    /// What follows is heard in another call.
    pub fn next_call(&mut self) {
        self.calls += 1;
    }

    /// The used commands of a call, and its written report.
    pub fn hear_call(&mut self, mut commands: &[u8], report: &[u8]) -> Result<(), Fault> {
        self.next_call();
        for record in Record::read_all(report).ok_or(Fault::Unreadable)? {
            let (command, length) = Command::read(commands).map_err(|_| Fault::Unreadable)?;
            self.hear(&command, &record)?;
            commands = &commands[length..];
        }
        ensure(commands.is_empty(), Fault::Unreadable)
    }

    /// A command and its record. 4C would list the lines that were heard.
    pub fn hear(&mut self, command: &Command, record: &Record) -> Result<(), Fault> {
        let site = |(&number, &position)| Site { number, position };
        let sites = || self.lines.iter().map(site).collect::<Vec<_>>();
        let listed = self
            .leg_to(command)
            .map(|leg| hull::split_list(&leg, &sites()));
        self.hear_beside(command, record, &listed.unwrap_or_default())
    }

    /// The leg that a 43 asks for, in a tour.
    pub fn leg_to(&self, command: &Command) -> Option<Leg> {
        match (command, &self.tour) {
            (Command::Corner(e), Some(tour)) => Some(Leg {
                s: tour.corner,
                e: *e,
            }),
            _ => None,
        }
    }

    /// A command and its record, and where it asks for a leg, what 4C lists of that.
    pub fn hear_beside(
        &mut self,
        command: &Command,
        record: &Record,
        listed: &[Entry],
    ) -> Result<(), Fault> {
        match (*command, record) {
            (Command::Corner(_), Record::Refused(_)) => {
                let in_a_tour = self.tour.is_some();
                return ensure(in_a_tour != (*record == NO_TOUR), Fault::NotOfATour);
            }
            (_, Record::Refused(_)) => {}
            (Command::Add(site) | Command::Move(site), Record::Accepted) => {
                self.hear_site(site);
            }
            (Command::AddReadings(..) | Command::MoveReadings(..), Record::Accepted) => {
                self.hear_site(command.site().ok_or(Fault::OtherRecord)?);
            }
            (Command::Remove(number), Record::Accepted) => {
                self.lines.remove(&number);
                self.tour = None;
            }
            (Command::Stand(_), Record::Accepted) => {}
            (Command::List(_) | Command::Print, Record::List(_)) => {}
            (Command::Begin(corner), Record::Accepted) => self.hear_beginning(corner),
            (Command::Corner(corner), Record::List(record)) => {
                return self.hear_leg(corner, record, listed);
            }
            _ => return Err(Fault::OtherRecord),
        }
        Ok(())
    }

    /// A site that stands there from now on.
    fn hear_site(&mut self, site: Site) {
        self.lines.insert(site.number, site.position);
        self.tour = None;
    }

    fn hear_beginning(&mut self, corner: Position) {
        self.tour = Some(Heard::from(corner, self.calls));
        self.told.begun += 1;
    }

    /// "the last entry of its record whose start is not above it, or else the last entry in the
    /// tour's earlier records, must name the site that command 4C's list of that leg names there"
    fn hear_leg(&mut self, e: Position, record: &[Entry], listed: &[Entry]) -> Result<(), Fault> {
        let tour = self.tour.as_mut().ok_or(Fault::NotOfATour)?;
        ensure(record.iter().all(is_start), Fault::Unreadable)?;
        let leg = Leg { s: tour.corner, e };
        let earlier = tour.last();
        for t in deciding_fractions(listed, record) {
            let named = name_at(record, t).or(earlier);
            let same = named.is_some() && named == name_at(listed, t);
            ensure(same, Fault::Misnamed(leg, t))?;
            self.told.fractions += 1;
        }
        self.told.count(tour, self.calls, record, listed);
        tour.corner = e;
        tour.call = self.calls;
        tour.legs += 1;
        tour.records.push(record.to_vec());
        Ok(())
    }
}

impl Told {
    fn count(&mut self, tour: &Heard, call: usize, record: &[Entry], listed: &[Entry]) {
        let times = usize::from;
        let last = tour.records.last();
        self.legs += 1;
        self.across_calls += times(tour.call < call);
        self.most_legs = self.most_legs.max(tour.legs + 1);
        self.left_out += times(record.len() < listed.len());
        self.changed_at_corner += times(last.is_some() && record.len() == listed.len());
        self.nothing += times(record.is_empty());
        self.nothing_again += times(record.is_empty() && last.is_some_and(Vec::is_empty));
    }
}

fn is_start(entry: &Entry) -> bool {
    let Fraction {
        numerator,
        denominator,
    } = entry.start;
    numerator < denominator && denominator <= LARGEST_DENOMINATOR
}

fn ensure(holds: bool, fault: Fault) -> Result<(), Fault> {
    if holds { Ok(()) } else { Err(fault) }
}
