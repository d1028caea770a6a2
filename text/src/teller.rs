//! Puts each record in words beside its command, and remembers what it needs for that: legs, and
//! where a tour is. Behind the words for readings it tells their steps.

use crate::command::Command;
use crate::grid::{Leg, Route};
use crate::record::Record;
use crate::tour::Tour;
use crate::words::{self, Known, Name};
use std::io::{self, Write};

const OFF_GRID: u8 = 2;

#[derive(Default)]
pub struct Teller {
    /// Of the last accepted `stand`.
    standing: Option<Leg>,
    tour: Tour,
    asked: Option<Asked>,
    pub refused: bool,
}

/// What was asked for last.
enum Asked {
    /// By a `leg` that lies on the grid.
    Leg(Leg),
    /// By a `corner` that was answered.
    Tour,
}

impl Teller {
    /// Of a table with this standing leg and tour.
    pub fn new(standing: Option<Leg>, tour: Option<Tour>) -> Self {
        Teller {
            standing,
            tour: tour.unwrap_or_default(),
            ..Teller::default()
        }
    }

    pub fn tell(
        &mut self,
        name: Name,
        command: Option<&Command>,
        record: &Record,
        out: &mut impl Write,
    ) -> io::Result<()> {
        self.refused |= matches!(record, Record::Refused(_));
        let known = command.map_or_else(Known::default, |command| self.known(command));
        words::tell(record, name, &known, out)?;
        if let Some(command) = command {
            words::tell_steps(command, name, out)?;
            self.hear(command, record);
        }
        Ok(())
    }

    /// Of the list that this command asks for, if any.
    fn known(&self, command: &Command) -> Known {
        match *command {
            Command::List(leg) => Known {
                leg: Some(leg),
                last: None,
            },
            Command::Print => Known {
                leg: self.standing,
                last: None,
            },
            Command::Corner(to) => Known {
                leg: self.tour.leg(to),
                last: self.tour.last(),
            },
            _ => Known::default(),
        }
    }

    fn hear(&mut self, command: &Command, record: &Record) {
        self.tour.hear(command, record);
        match (command, record) {
            (Command::Stand(leg), Record::Accepted) => self.standing = Some(*leg),
            (Command::List(_), Record::Refused(OFF_GRID)) => {}
            (Command::List(leg), _) => self.asked = Some(Asked::Leg(*leg)),
            (Command::Corner(_), Record::List(_)) => self.asked = Some(Asked::Tour),
            _ => {}
        }
    }

    /// What a picture is about: the leg or tour asked for last, else the standing leg.
    pub fn route(&self) -> Option<Route> {
        match self.asked {
            Some(Asked::Leg(leg)) => Some(Route::Leg(leg)),
            Some(Asked::Tour) => Some(Route::Tour(self.tour.driven().to_vec())),
            None => self.standing.map(Route::Leg),
        }
    }
}

/// Whether the record can be the command's answer.
pub fn answers(record: &Record, command: &Command) -> bool {
    match (command, record) {
        (_, Record::Refused(_)) => true,
        (Command::List(_) | Command::Print, _) => record.is_whole_list(),
        (Command::Corner(_), _) => matches!(record, Record::List(_)),
        (_, Record::Accepted) => true,
        (_, Record::List(_)) => false,
    }
}
