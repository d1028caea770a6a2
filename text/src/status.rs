//! How a run ends: what it met on the way, or what broke it off.

use crate::service::BROKEN_STANDING;
use crate::words;
use std::fmt::{self, Display};
use std::io;

/// What was met; the exit code is that of the worst.
#[derive(Clone, Copy, Debug, Default, PartialEq, Eq)]
pub struct Met {
    pub refusal: bool,
    pub bad_line: bool,
    /// A file could not be written on the way.
    pub unwritten: bool,
    /// The table that was looked at is broken.
    pub unsound: bool,
}

impl Met {
    pub fn code(self) -> u8 {
        match self {
            Met { unsound: true, .. } => 5,
            Met {
                unwritten: true, ..
            } => 4,
            Met { bad_line: true, .. } => 2,
            Met { refusal: true, .. } => 1,
            _ => 0,
        }
    }
}

/// What breaks a run off.
#[derive(Debug)]
pub enum Failure {
    Usage(String),
    /// What could not be done, and why.
    Io(String, io::Error),
    /// The service ended with a reason of its own.
    Ended(u32),
    /// A file, and the reason that the service gives for refusing it as a table.
    NoTable(String, u32),
    /// A file whose table an earlier release took, and the service refuses for this reason.
    Earlier(String, u32),
    /// The bytes that the service wrote are no records.
    Report,
    /// With --decode: the byte, and why it cannot be read.
    Undecodable(u64, String),
}

impl Failure {
    pub fn code(&self) -> u8 {
        match self {
            Failure::Undecodable(..) => 2,
            Failure::Usage(_) => 3,
            Failure::Io(..) => 4,
            Failure::Ended(_) | Failure::Report | Failure::NoTable(..) | Failure::Earlier(..) => 5,
        }
    }

    /// For `map_err` on writing answers.
    pub fn writing(error: io::Error) -> Self {
        Failure::Io("cannot write the output".into(), error)
    }
}

/// What is said of a file whose table is refused for this reason.
pub fn unsound(name: impl Display, reason: u32) -> String {
    let why = words::reason(reason);
    format!("{name} is no sound table: reason {reason}, {why}")
}

impl Display for Failure {
    fn fmt(&self, f: &mut fmt::Formatter) -> fmt::Result {
        match self {
            Failure::Usage(what) => write!(f, "{what}; try --help"),
            Failure::Io(what, why) => write!(f, "{what}: {why}"),
            Failure::Ended(number) => {
                write!(
                    f,
                    "the service ended with reason {number}: {}",
                    words::reason(*number)
                )
            }
            Failure::NoTable(name, reason) => {
                write!(f, "{}; --check {name} tells more", unsound(name, *reason))?;
                match *reason {
                    BROKEN_STANDING => {
                        write!(f, ", --dump {name} writes the lines that lay it out anew")
                    }
                    _ => Ok(()),
                }
            }
            Failure::Earlier(name, reason) => {
                write!(
                    f,
                    "{name} is a table of an earlier release, refused with reason {reason}; --dump {name} carries it over"
                )
            }
            Failure::Report => write!(f, "the service wrote a report that cannot be read"),
            Failure::Undecodable(at, why) => write!(f, "byte {at}: {why}"),
        }
    }
}

#[cfg(test)]
mod tests {
    use super::*;

    #[test]
    fn a_bad_line_outweighs_a_refusal() {
        let code = |refusal, bad_line| {
            let met = Met {
                refusal,
                bad_line,
                ..Met::default()
            };
            met.code()
        };
        let codes = [
            code(false, false),
            code(true, false),
            code(false, true),
            code(true, true),
        ];
        assert_eq!(codes, [0, 1, 2, 2]);
        let unwritten = Met {
            unwritten: true,
            bad_line: true,
            refusal: true,
            unsound: false,
        };
        assert_eq!(unwritten.code(), 4);
        let unsound = Met {
            unsound: true,
            ..unwritten
        };
        assert_eq!(unsound.code(), 5);
    }

    #[test]
    fn every_failure_has_its_code_and_words() {
        let error = || io::Error::from(io::ErrorKind::NotFound);
        let failures = [
            (Failure::Usage("no".into()), 3, "no; try --help"),
            (
                Failure::Io("cannot".into(), error()),
                4,
                "cannot: entity not found",
            ),
            (
                Failure::Ended(65),
                5,
                "the service ended with reason 65: a rule on layout, sites, tour or tree is broken in the table",
            ),
            (
                Failure::Ended(64),
                5,
                "the service ended with reason 64: table or work buffer of wrong length",
            ),
            (
                Failure::NoTable("t".into(), 65),
                5,
                "t is no sound table: reason 65, a rule on layout, sites, tour or tree is broken in the table; --check t tells more",
            ),
            (
                Failure::NoTable("t".into(), 69),
                5,
                "t is no sound table: reason 69, the standing leg or list in the table is wrong, its sites can be read; --check t tells more, --dump t writes the lines that lay it out anew",
            ),
            (
                Failure::Earlier("t".into(), 65),
                5,
                "t is a table of an earlier release, refused with reason 65; --dump t carries it over",
            ),
            (
                Failure::Earlier("t".into(), 69),
                5,
                "t is a table of an earlier release, refused with reason 69; --dump t carries it over",
            ),
            (
                Failure::Report,
                5,
                "the service wrote a report that cannot be read",
            ),
            (Failure::Undecodable(9, "cut".into()), 2, "byte 9: cut"),
        ];
        for (failure, code, words) in failures {
            assert_eq!(
                (failure.code(), failure.to_string().as_str()),
                (code, words)
            );
        }
    }
}
