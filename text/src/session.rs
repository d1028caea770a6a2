//! A run's state: the service, what was told by now, and what lines may do besides.

use crate::picture::{self, Look};
use crate::service::Service;
use crate::status::{Failure, Met};
use crate::store::Store;
use crate::table::{self, UnderWay};
use crate::teller::Teller;
use crate::tour::Tour;
use crate::words::Name;
use std::ffi::OsStr;

pub struct Session {
    pub service: Service,
    pub teller: Teller,
    pub met: Met,
    /// Answers do not name their lines.
    pub plain: bool,
    /// Where the table is kept.
    pub store: Option<Store>,
    pub look: Look,
    /// The run goes on when nobody reads the answers.
    pub keep_on: bool,
}

impl Session {
    pub fn new(service: Service) -> Self {
        let tour = |tour: UnderWay| Tour::under_way(tour.corner, tour.remembered);
        let table = service.table();
        Session {
            teller: Teller::new(table::leg(table), table::tour(table).map(tour)),
            service,
            met: Met::default(),
            plain: false,
            store: None,
            look: Look::default(),
            keep_on: false,
        }
    }

    /// What the answer to this line is called.
    pub fn name(&self, line: u64) -> Name {
        if self.plain {
            Name::Plain
        } else {
            Name::Line(line)
        }
    }

    /// Where the table is kept in a file.
    pub fn save(&mut self) -> Result<(), Failure> {
        match &mut self.store {
            Some(store) => store.save(self.service.table()),
            None => Ok(()),
        }
    }

    pub fn picture(&mut self) -> Result<String, Failure> {
        picture::of(&mut self.service, self.teller.route(), &self.look)
    }

    pub fn draw(&mut self, file: &OsStr) -> Result<(), Failure> {
        self.look.guard.allow(file)?;
        let svg = self.picture()?;
        self.look.guard.write(file, &svg)
    }
}
