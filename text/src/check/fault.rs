//! A broken rule: where, what, and the bytes.

use crate::grid::grouped;
use crate::service::{BROKEN_STANDING, BROKEN_TABLE, WRONG_LENGTH};
use binding::layout::{far_edge, number};
use std::fmt;

#[derive(Clone, Debug, PartialEq, Eq)]
pub struct Fault {
    /// What the service says where nothing else is broken.
    pub reason: u32,
    place: String,
    what: String,
    /// The byte, what stands there, and what belongs there where that is one thing.
    word: Option<(usize, usize, Option<usize>)>,
}

impl Fault {
    /// Of the word at this byte.
    pub fn at(table: &[u8], at: usize, place: impl Into<String>, what: impl Into<String>) -> Self {
        Fault {
            reason: BROKEN_TABLE,
            place: place.into(),
            what: what.into(),
            word: Some((at, number(table, at), None)),
        }
    }

    /// Of a table's length.
    pub fn length(what: String) -> Self {
        Fault {
            reason: WRONG_LENGTH,
            place: "table".into(),
            what,
            word: None,
        }
    }

    /// In the standing leg or list, so that sites, tour and tree can be sound.
    pub fn of_standing(mut self) -> Self {
        self.reason = BROKEN_STANDING;
        self
    }

    pub fn belongs(mut self, belongs: impl Into<usize>) -> Self {
        if let Some((_, _, there)) = &mut self.word {
            *there = Some(belongs.into());
        }
        self
    }
}

impl fmt::Display for Fault {
    fn fmt(&self, f: &mut fmt::Formatter) -> fmt::Result {
        write!(f, "{}: {}", self.place, self.what)?;
        if let Some((at, stands, belongs)) = self.word {
            let (at, stands) = (grouped(at), grouped(stands));
            write!(f, ", byte {at}: {stands} stands there")?;
            if let Some(belongs) = belongs {
                write!(f, ", {} belongs there", grouped(belongs))?;
            }
        }
        Ok(())
    }
}

/// What is said of a coordinate that its table's grid does not have.
pub fn off_grid(table: &[u8], name: &str) -> String {
    let edge = grouped(far_edge(table).into());
    format!("the {name} is off the grid, 0 to {edge} from its edge")
}
