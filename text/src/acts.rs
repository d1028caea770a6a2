//! Carries out the lines that stops-text does itself.

use crate::act::Act;
use crate::desk::Desk;
use crate::help;
use crate::line::Complaint;
use crate::session::Session;
use crate::show;
use crate::status::Failure;
use crate::words::Name;
use std::io::Write;

impl Session {
    pub fn act<W: Write, E: Write>(
        &mut self,
        number: u64,
        act: &Act,
        desk: &mut Desk<W, E>,
    ) -> Result<(), Failure> {
        let name = self.name(number);
        match act {
            Act::Sites => show::sites(name, &self.service, desk),
            Act::Standing => show::standing(name, &mut self.service, desk),
            Act::Touring => show::touring(name, &self.service, desk),
            Act::Tree => show::tree(name, &self.service, desk),
            Act::Help => desk.say(help::lines()),
            Act::Save if self.store.is_none() => self.complain(number, &Complaint::NoTable, desk),
            Act::Save => {
                let saved = self.save();
                self.outcome(number, name, saved, "saved", desk)
            }
            Act::Draw(file) => {
                let drawn = self.draw(file);
                self.outcome(number, name, drawn, "drawn", desk)
            }
            Act::Quit => Ok(()),
        }
    }

    fn complain<W: Write, E: Write>(
        &mut self,
        number: u64,
        complaint: &Complaint,
        desk: &mut Desk<W, E>,
    ) -> Result<(), Failure> {
        self.met.bad_line = true;
        desk.complain(number, complaint)
    }

    /// A file that cannot be written does not end the run: what it holds would be lost.
    fn outcome<W: Write, E: Write>(
        &mut self,
        number: u64,
        name: Name,
        done: Result<(), Failure>,
        word: &str,
        desk: &mut Desk<W, E>,
    ) -> Result<(), Failure> {
        match done {
            Ok(()) => desk.say(format_args!("{name}{word}")),
            Err(failure @ Failure::Io(..)) => {
                self.met.unwritten = true;
                desk.complain(number, &failure)
            }
            Err(failure) => Err(failure),
        }
    }
}
