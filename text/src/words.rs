//! Records, refusals and reasons in the words of documents 01 and 02.

use crate::command::Command;
use crate::grid::{self, Leg};
use crate::point;
use crate::record::{self, Entry, Record};
use std::fmt;
use std::io::{self, Write};

/// What an answer belongs to.
#[derive(Clone, Copy, Debug, PartialEq, Eq)]
pub enum Name {
    /// Not said: the form for scripts.
    Plain,
    Line(u64),
    /// Where commands come as bytes.
    Command(u64),
}

impl fmt::Display for Name {
    fn fmt(&self, f: &mut fmt::Formatter) -> fmt::Result {
        match self {
            Name::Plain => Ok(()),
            Name::Line(number) => write!(f, "line {number}: "),
            Name::Command(number) => write!(f, "command {number}: "),
        }
    }
}

/// What is known of a list besides its record.
#[derive(Clone, Copy, Debug, Default, PartialEq, Eq)]
pub struct Known {
    pub leg: Option<Leg>,
    /// The site that the tour's earlier records end with.
    pub last: Option<u16>,
}

/// The answer, one line or one for each entry more; with the leg, the starts' points too.
pub fn tell(record: &Record, name: Name, known: &Known, out: &mut impl Write) -> io::Result<()> {
    match record {
        Record::Accepted => writeln!(out, "accepted"),
        Record::Refused(number) => {
            let range = match (name, number) {
                (Name::Line(_) | Name::Command(_), 1) => ", it is 1 to 65,535",
                _ => "",
            };
            writeln!(out, "{name}refused {number}: {}{range}", refusal(*number))
        }
        Record::List(list) => {
            write!(out, "{name}list of {}", entries(list.len()))?;
            match (name, known.leg) {
                (Name::Plain, _) | (_, None) => writeln!(out)?,
                (_, Some(leg)) => writeln!(out, ", {leg}")?,
            }
            if !record::is_whole(list) {
                tell_still(known.last, out)?;
            }
            tell_entries(list, known.leg.as_ref(), out)
        }
    }
}

/// Behind the answer to a receiver's readings: the line that sends them, and their steps as a comment.
/// A script knows what it sent.
pub fn tell_steps(command: &Command, name: Name, out: &mut impl Write) -> io::Result<()> {
    match (name, command.readings()) {
        (Name::Plain, _) | (_, None) => Ok(()),
        (_, Some(readings)) => writeln!(out, "{command} # {}", readings.in_steps()),
    }
}

/// `1 entry`, `2 entries`.
pub fn entries(count: usize) -> String {
    let entries = if count == 1 { "entry" } else { "entries" };
    format!("{count} {entries}")
}

/// Up to the first start, or to the leg's end: the first entry is left out.
fn tell_still(last: Option<u16>, out: &mut impl Write) -> io::Result<()> {
    match last {
        Some(site) => writeln!(out, "still site {site}"),
        None => writeln!(out, "still the last site of the tour's earlier records"),
    }
}

pub fn tell_entries(list: &[Entry], leg: Option<&Leg>, out: &mut impl Write) -> io::Result<()> {
    list.iter()
        .try_for_each(|entry| tell_entry(entry, leg, out))
}

fn tell_entry(entry: &Entry, leg: Option<&Leg>, out: &mut impl Write) -> io::Result<()> {
    write!(out, "from {}/{} ", entry.numerator, entry.denominator)?;
    if let Some(leg) = leg {
        write!(out, "{} ", point::in_words(leg, entry))?;
    }
    writeln!(out, "site {}", entry.site)
}

/// How a run or the batch program ended.
pub fn tell_end(number: u32, out: &mut impl Write) -> io::Result<()> {
    writeln!(out, "end {number}: {}", reason(number))
}

fn refusal(number: u8) -> String {
    let words = match number {
        1 => "site number 0",
        2 => return format!("a coordinate outside {}", grid::span()),
        3 => "number already held",
        4 => "number not held",
        5 => "512 sites held",
        6 => "no site held",
        7 => "no standing leg",
        8 => "no tour under way",
        11 => "a reading is not a finite number",
        _ => "no such refusal",
    };
    words.into()
}

pub fn is_reason(number: u32) -> bool {
    matches!(number, 0 | 64..=69)
}

pub fn reason(number: u32) -> &'static str {
    match number {
        0 => "all commands used",
        64 => "table or work buffer of wrong length",
        65 => "a rule on layout, sites, tour or tree is broken in the table",
        66 => "unknown command byte",
        67 => "known command, operands cut short",
        68 => "the command's record exceeds what is left of the report buffer",
        69 => "the standing leg or list in the table is wrong, its sites can be read",
        _ => "no such reason",
    }
}

#[cfg(test)]
mod tests {
    use super::*;
    use crate::grid::Position;
    use crate::line::{self, Said};

    fn named(record: &Record, name: Name, leg: Option<Leg>, last: Option<u16>) -> String {
        let mut out = Vec::new();
        tell(record, name, &Known { leg, last }, &mut out).unwrap();
        String::from_utf8(out).unwrap()
    }

    fn told(record: &Record, leg: Option<Leg>) -> String {
        named(record, Name::Plain, leg, None)
    }

    fn entry(site: u16, numerator: u32, denominator: u32) -> Entry {
        Entry {
            site,
            numerator,
            denominator,
        }
    }

    const LEG: Leg = Leg {
        s: Position { east: 0, north: 0 },
        e: Position { east: 10, north: 0 },
    };

    #[test]
    fn every_refusal() {
        let expected = [
            "refused 1: site number 0\n",
            "refused 2: a coordinate outside -12,000 to 12,000\n",
            "refused 3: number already held\n",
            "refused 4: number not held\n",
            "refused 5: 512 sites held\n",
            "refused 6: no site held\n",
            "refused 7: no standing leg\n",
            "refused 8: no tour under way\n",
            "refused 11: a reading is not a finite number\n",
        ];
        for (number, words) in (1..=8).chain([11]).zip(expected) {
            assert_eq!(told(&Record::Refused(number), None), words);
        }
    }

    #[test]
    fn steps_stand_behind_the_line_of_readings() {
        let told = |line: &[u8], name| {
            let Ok(Some(Said::Command(command))) = line::parse(line) else {
                panic!("no command");
            };
            let mut out = Vec::new();
            tell_steps(&command, name, &mut out).unwrap();
            String::from_utf8(out).unwrap()
        };
        for (line, words) in [
            (
                &b"add 7 +1234.50m -99.9m"[..],
                "add 7 1234.5m -99.9m # step 12 -1\n",
            ),
            (
                b"move 7 1200050m -0m",
                "move 7 1200050m -0m # easting off the grid, northing step 0\n",
            ),
            (
                b"add 0 0x42c80000m 0x7fc00001m",
                "add 0 100m 0x7FC00001m # easting step 1, northing not finite\n",
            ),
            (b"add 7 12 -1", ""),
            (b"move 7 12 -1", ""),
            (b"print", ""),
        ] {
            assert_eq!(told(line, Name::Line(3)), words);
            assert_eq!(told(line, Name::Command(3)), words);
            assert_eq!(told(line, Name::Plain), "");
        }
    }

    #[test]
    fn every_reason() {
        let expected = [
            (0, "end 0: all commands used\n"),
            (64, "end 64: table or work buffer of wrong length\n"),
            (
                65,
                "end 65: a rule on layout, sites, tour or tree is broken in the table\n",
            ),
            (66, "end 66: unknown command byte\n"),
            (67, "end 67: known command, operands cut short\n"),
            (
                68,
                "end 68: the command's record exceeds what is left of the report buffer\n",
            ),
            (
                69,
                "end 69: the standing leg or list in the table is wrong, its sites can be read\n",
            ),
        ];
        for (number, words) in expected {
            let mut out = Vec::new();
            tell_end(number, &mut out).unwrap();
            assert_eq!(String::from_utf8(out).unwrap(), words);
        }
        let reasons: Vec<u32> = (0..300).filter(|number| is_reason(*number)).collect();
        assert_eq!(reasons, expected.map(|(number, _)| number));
    }

    #[test]
    fn lists_with_and_without_points() {
        let list = Record::List(vec![entry(1, 0, 1), entry(2, 37, 100)]);
        let plain = "list of 2 entries\nfrom 0/1 site 1\nfrom 37/100 site 2\n";
        assert_eq!(told(&list, None), plain);
        let points = "list of 2 entries\nfrom 0/1 (0.000, 0.000) site 1\nfrom 37/100 (3.700, 0.000) site 2\n";
        assert_eq!(told(&list, Some(LEG)), points);
        let one = Record::List(vec![entry(9, 0, 1)]);
        assert_eq!(told(&one, None), "list of 1 entry\nfrom 0/1 site 9\n");
        assert_eq!(told(&Record::Accepted, Some(LEG)), "accepted\n");
        assert_eq!(
            named(&one, Name::Line(3), Some(LEG), None),
            "line 3: list of 1 entry, (0, 0) to (10, 0)\nfrom 0/1 (0.000, 0.000) site 9\n"
        );
        assert_eq!(
            named(&one, Name::Command(3), None, None),
            "command 3: list of 1 entry\nfrom 0/1 site 9\n"
        );
        let refused = named(&Record::Refused(3), Name::Line(6), None, None);
        assert_eq!(refused, "line 6: refused 3: number already held\n");
        let zero = named(&Record::Refused(1), Name::Line(6), None, None);
        assert_eq!(
            zero,
            "line 6: refused 1: site number 0, it is 1 to 65,535\n"
        );
        assert_eq!(
            named(&Record::Accepted, Name::Line(6), None, None),
            "accepted\n"
        );
    }

    #[test]
    fn lists_without_their_first_entry() {
        let one = Record::List(vec![entry(2, 37, 100)]);
        assert_eq!(
            named(&one, Name::Line(3), Some(LEG), Some(7)),
            "line 3: list of 1 entry, (0, 0) to (10, 0)\nstill site 7\nfrom 37/100 (3.700, 0.000) site 2\n"
        );
        let none = Record::List(vec![]);
        assert_eq!(
            named(&none, Name::Line(3), Some(LEG), Some(7)),
            "line 3: list of 0 entries, (0, 0) to (10, 0)\nstill site 7\n"
        );
        assert_eq!(
            told(&none, None),
            "list of 0 entries\nstill the last site of the tour's earlier records\n"
        );
        // A whole list needs no site before it.
        let whole = Record::List(vec![entry(2, 0, 1)]);
        assert_eq!(
            named(&whole, Name::Plain, None, Some(7)),
            "list of 1 entry\nfrom 0/1 site 2\n"
        );
    }
}
