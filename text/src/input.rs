//! What is read: a named file or standard input.

use crate::status::Failure;
use std::ffi::OsStr;
use std::fs::File;
use std::io::{self, ErrorKind, IsTerminal, Read};

const PIECE_LEN: usize = 65_536;

pub struct Input {
    source: Box<dyn Read>,
    name: String,
    piece: Vec<u8>,
    /// In bytes, where it is known beforehand.
    pub size: Option<u64>,
    /// It comes from a terminal.
    pub typed: bool,
    /// Bytes read by now.
    pub read: u64,
}

impl Input {
    /// No file, or `-`, is standard input.
    pub fn open(file: Option<&OsStr>) -> Result<Self, Failure> {
        match file.filter(|file| *file != "-") {
            None => {
                let typed = io::stdin().is_terminal();
                Ok(Input::new(
                    Box::new(io::stdin()),
                    "standard input".into(),
                    None,
                    typed,
                ))
            }
            Some(file) => {
                let name = file.to_string_lossy().into_owned();
                let opened = File::open(file);
                let source = opened.map_err(|error| cannot("open", &name, error))?;
                let known = source.metadata().ok().filter(|about| about.is_file());
                let size = known.map(|about| about.len());
                let typed = source.is_terminal();
                Ok(Input::new(Box::new(source), name, size, typed))
            }
        }
    }

    fn new(source: Box<dyn Read>, name: String, size: Option<u64>, typed: bool) -> Self {
        Input {
            source,
            name,
            piece: vec![0; PIECE_LEN],
            size,
            typed,
            read: 0,
        }
    }

    #[cfg(test)]
    pub fn of(bytes: &'static [u8]) -> Self {
        Input::new(Box::new(bytes), "bytes".into(), None, false)
    }

    /// What there is to read now, at most a piece; empty at the end.
    pub fn next(&mut self) -> Result<&[u8], Failure> {
        loop {
            match self.source.read(&mut self.piece) {
                Ok(length) => {
                    self.read += length as u64;
                    return Ok(&self.piece[..length]);
                }
                Err(error) if error.kind() == ErrorKind::Interrupted => {}
                Err(error) => return Err(cannot("read", &self.name, error)),
            }
        }
    }

    /// All that is left.
    pub fn whole(&mut self) -> Result<Vec<u8>, Failure> {
        let mut all = Vec::new();
        loop {
            match self.next()? {
                [] => return Ok(all),
                piece => all.extend(piece),
            }
        }
    }
}

/// The whole file.
pub fn read_file(file: &OsStr) -> Result<Vec<u8>, Failure> {
    std::fs::read(file).map_err(|error| cannot("read", &file.to_string_lossy(), error))
}

fn cannot(act: &str, name: &str, error: io::Error) -> Failure {
    Failure::Io(format!("cannot {act} {name}"), error)
}
