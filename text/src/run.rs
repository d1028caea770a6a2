//! Lines in, run through the service and answered in words.

use crate::act::Act;
use crate::command::Command;
use crate::desk::Desk;
use crate::script::{self, Item, Script};
use crate::session::Session;
use crate::status::{Failure, Met};
use crate::words::Name;
use std::io::Write;

/// Answers every line.
pub fn run<W: Write, E: Write>(
    session: &mut Session,
    mut script: Script,
    desk: &mut Desk<W, E>,
) -> Result<(), Failure> {
    desk.greet()?;
    desk.prompt()?;
    while let Some(items) = script.next()? {
        let served = session.serve(&items, desk);
        if let Err(Failure::Ended(reason)) = served {
            desk.end(reason)?;
        }
        if served? == Flow::Quit {
            break;
        }
        desk.rest(script.input.read)?;
        if desk.out.is_closed() && !session.keep_on {
            return Ok(());
        }
        if !script.ended() {
            desk.prompt()?;
        } else if desk.talk {
            // The end of what is typed stands behind a prompt.
            desk.say("")?;
        }
    }
    desk.end(0)
}

#[derive(PartialEq, Eq)]
enum Flow {
    On,
    Quit,
}

impl Session {
    fn serve<W: Write, E: Write>(
        &mut self,
        items: &[Item],
        desk: &mut Desk<W, E>,
    ) -> Result<Flow, Failure> {
        let mut rest = items;
        loop {
            let is_act = |item: &Item| matches!(item, Item::Act(..));
            let before = rest.iter().position(is_act).unwrap_or(rest.len());
            self.serve_commands(&rest[..before], desk)?;
            match rest[before..].split_first() {
                Some((Item::Act(_, Act::Quit), _)) => return Ok(Flow::Quit),
                Some((Item::Act(number, act), later)) => {
                    self.act(*number, act, desk)?;
                    rest = later;
                }
                _ => return Ok(Flow::On),
            }
        }
    }

    /// Commands and bad lines.
    fn serve_commands<W: Write, E: Write>(
        &mut self,
        items: &[Item],
        desk: &mut Desk<W, E>,
    ) -> Result<(), Failure> {
        let plain = self.plain;
        let Session {
            service,
            teller,
            met,
            ..
        } = self;
        let mut left = items.iter();
        let served = service.serve(&script::bytes(items), |record| {
            let (number, command) = next_command(&mut left, desk, met)?.unzip();
            let name = match number {
                Some(number) if !plain => Name::Line(number),
                _ => Name::Plain,
            };
            let told = teller.tell(name, command, &record, &mut desk.out);
            told.map_err(Failure::writing)
        });
        met.refusal |= teller.refused;
        served?;
        // No record is left, so what is left are bad lines.
        next_command(&mut left, desk, met)?;
        Ok(())
    }
}

/// Names the bad lines before the next command, and gives that with its line's number.
fn next_command<'a, W: Write, E: Write>(
    left: &mut std::slice::Iter<'a, Item>,
    desk: &mut Desk<W, E>,
    met: &mut Met,
) -> Result<Option<(u64, &'a Command)>, Failure> {
    for item in left {
        match item {
            Item::Command(number, command) => return Ok(Some((*number, command))),
            Item::Bad(number, complaint) => {
                met.bad_line = true;
                desk.complain(*number, complaint)?;
            }
            Item::Act(..) => {}
        }
    }
    Ok(None)
}

#[cfg(test)]
mod tests {
    use super::*;
    use crate::console::Console;
    use crate::input::Input;
    use crate::output::Output;
    use crate::service::Service;
    use binding::layout::{ENTRIES_LISTED, SITES_HELD};
    use std::time::Instant;

    /// The exit code, the answers and the messages.
    fn ran(service: Service, lines: &'static [u8]) -> (u8, String, String) {
        let (mut out, mut err) = (Vec::new(), Vec::new());
        let mut desk = Desk {
            out: Output::new(&mut out),
            console: Console::on(&mut err, false, None, Instant::now()),
            shared: false,
            talk: false,
        };
        let mut session = Session::new(service);
        let done = run(&mut session, Script::new(Input::of(lines)), &mut desk);
        let code = done.map_or_else(|failure| failure.code(), |()| session.met.code());
        drop(desk);
        let text = |bytes| String::from_utf8(bytes).unwrap();
        (code, text(out), text(err))
    }

    #[test]
    fn a_reason_that_cannot_come_up_is_told_and_has_its_code() {
        for (at, end) in [
            (
                SITES_HELD,
                "end 65: a rule on layout, sites, tour or tree is broken in the table\n",
            ),
            (
                ENTRIES_LISTED,
                "end 69: the standing leg or list in the table is wrong, its sites can be read\n",
            ),
        ] {
            let (code, out, err) = ran(Service::broken(at), b"print\nprint\n");
            assert_eq!((code, out.as_str(), err.as_str()), (5, end, ""));
        }
    }

    #[test]
    fn bad_lines_are_named_in_their_place() {
        let service = Service::new().unwrap();
        let (code, out, err) = ran(service, b"x\nprint\ny\nz");
        let refused = "line 2: refused 7: no standing leg\nend 0: all commands used\n";
        assert_eq!((code, out.as_str()), (2, refused));
        let lines: Vec<&str> = err.lines().map(|line| &line[..19]).collect();
        assert_eq!(
            lines,
            [
                "stops-text: line 1:",
                "stops-text: line 3:",
                "stops-text: line 4:"
            ]
        );
    }
}
