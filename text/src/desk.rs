//! Where answers and messages go.

use crate::console::Console;
use crate::output::Output;
use crate::status::Failure;
use crate::words;
use std::fmt::Display;
use std::io::Write;

pub const VERSION: &str = concat!("stops-text ", env!("CARGO_PKG_VERSION"));
const PROMPT: &str = "> ";

pub struct Desk<W: Write, E: Write> {
    pub out: Output<W>,
    pub console: Console<E>,
    /// Both go to a terminal, so a progress line has to make way for answers.
    pub shared: bool,
    /// Lines are typed, and answers go to the same terminal.
    pub talk: bool,
}

impl<W: Write, E: Write> Desk<W, E> {
    pub fn flush(&mut self) -> Result<(), Failure> {
        if self.shared {
            self.console.make_way();
        }
        self.out.flush().map_err(Failure::writing)
    }

    pub fn greet(&mut self) -> Result<(), Failure> {
        if !self.talk {
            return Ok(());
        }
        self.say(format_args!("{VERSION}: help lists the lines, quit ends"))
    }

    pub fn prompt(&mut self) -> Result<(), Failure> {
        if !self.talk {
            return Ok(());
        }
        write!(self.out, "{PROMPT}").map_err(Failure::writing)?;
        self.flush()
    }

    /// One line among the answers.
    pub fn say(&mut self, line: impl Display) -> Result<(), Failure> {
        writeln!(self.out, "{line}").map_err(Failure::writing)
    }

    /// Answers come first, so that on a terminal everything stands in the order of the lines.
    pub fn complain(&mut self, number: u64, complaint: &impl Display) -> Result<(), Failure> {
        self.flush()?;
        self.console.say(format_args!("line {number}: {complaint}"));
        Ok(())
    }

    /// After a piece of input; the progress line comes last.
    pub fn rest(&mut self, read: u64) -> Result<(), Failure> {
        self.flush()?;
        self.console.progress(read);
        Ok(())
    }

    pub fn end(&mut self, reason: u32) -> Result<(), Failure> {
        words::tell_end(reason, &mut self.out).map_err(Failure::writing)?;
        self.flush()
    }
}
