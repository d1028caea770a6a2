//! The file that a table is kept in.

use crate::earlier;
use crate::replace::replace;
use crate::service::Service;
use crate::status::Failure;
use std::ffi::OsStr;
use std::fs;
use std::io;
use std::path::{Path, PathBuf};

pub struct Store {
    file: PathBuf,
    /// What it holds; none where there is no file yet.
    held: Option<Vec<u8>>,
}

impl Store {
    /// The file's table; with `create` an empty one where there is no file.
    pub fn open(file: &OsStr, create: bool) -> Result<(Store, Service), Failure> {
        let store = Store {
            file: file.into(),
            held: contents(Path::new(file), create)?,
        };
        let service = match &store.held {
            Some(table) => match table_of(file, table.clone()) {
                Err(Failure::NoTable(name, reason)) if earlier::is_carried_over(table)? => {
                    return Err(Failure::Earlier(name, reason));
                }
                taken => taken?,
            },
            None => Service::new()?,
        };
        Ok((store, service))
    }

    /// Nothing is written where the file holds just these bytes.
    pub fn save(&mut self, table: &[u8]) -> Result<(), Failure> {
        if self.held.as_deref() == Some(table) {
            return Ok(());
        }
        let found = contents(&self.file, true)?;
        if found.is_some() && found != self.held {
            let why = "somebody else changed it since it was read, so it is left";
            return Err(self.cannot_save(io::Error::other(why)));
        }
        let saved = replace(&self.file, table);
        saved.map_err(|error| self.cannot_save(error))?;
        self.held = Some(table.to_vec());
        Ok(())
    }

    fn cannot_save(&self, error: io::Error) -> Failure {
        Failure::Io(format!("cannot save {}", self.file.display()), error)
    }
}

/// None for a missing file, where that may be.
fn contents(file: &Path, may_be_missing: bool) -> Result<Option<Vec<u8>>, Failure> {
    match fs::read(file) {
        Ok(bytes) => Ok(Some(bytes)),
        Err(error) if error.kind() == io::ErrorKind::NotFound && may_be_missing => Ok(None),
        Err(error) => Err(Failure::Io(
            format!("cannot read {}", file.display()),
            error,
        )),
    }
}

/// A service on a table that it takes.
pub fn table_of(file: &OsStr, table: Vec<u8>) -> Result<Service, Failure> {
    Service::take_up(table).map_err(|reason| Failure::NoTable(name_of(file), reason))
}

fn name_of(file: &OsStr) -> String {
    file.to_string_lossy().into_owned()
}
