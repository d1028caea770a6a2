//! A service that is laid out like the model, and answers batches as a test likes.

use crate::table::meaning;
use crate::{Answer, Model, Service};
use reference::book::Book;
use reference::command::Command;
use reference::record::Record;
use reference::split::TieRule;
use reference::ties::renamed;

type Batch = fn(&mut [u8], &mut [u8], &[u8], &mut [u8]) -> Answer;

/// Table, work, commands and report.
pub struct Wrong(pub Batch);

impl Service for Wrong {
    fn lay_out(&self, table: &mut [u8]) -> u32 {
        Model.lay_out(table)
    }

    fn batch(
        &self,
        table: &mut [u8],
        work: &mut [u8],
        commands: &[u8],
        report: &mut [u8],
    ) -> Answer {
        (self.0)(table, work, commands, report)
    }
}

/// A command that was done or found no room: the table before it, and the bytes of its record.
pub struct Step<'s> {
    pub before: &'s [u8],
    pub command: Command,
    pub record: &'s mut [u8],
}

/// As the model, but command by command: before and after each the table may slip.
pub fn slipping(
    before: impl Fn(&mut [u8], &Command),
    after: impl Fn(&mut [u8], Step),
    (t, w, c, r): (&mut [u8], &mut [u8], &[u8], &mut [u8]),
) -> Answer {
    let (mut used, mut written) = (0, 0);
    loop {
        let next = Command::read(&c[used..]);
        let length = next.map_or(c.len() - used, |(_, length)| length);
        let as_it_was = t.to_vec();
        if let Ok((command, _)) = next {
            before(t, &command);
        }
        let answer = Model.batch(t, w, &c[used..used + length], &mut r[written..]);
        if let (Ok((command, _)), 0 | 68) = (next, answer.0) {
            let step = Step {
                before: &as_it_was,
                command,
                record: &mut r[written..written + answer.2],
            };
            after(t, step);
        }
        (used, written) = (used + answer.1, written + answer.2);
        if answer.0 != 0 || used == c.len() {
            return (answer.0, used, written);
        }
    }
}

/// As the model, but command by command: another one stands in the place of each where this says so,
/// which may depend on the table before it.
pub fn replacing(
    replace: impl Fn(&[u8], &Command) -> Option<Vec<u8>>,
    (t, w, c, r): (&mut [u8], &mut [u8], &[u8], &mut [u8]),
) -> Answer {
    let (mut used, mut written) = (0, 0);
    loop {
        let next = Command::read(&c[used..]);
        let length = next.map_or(c.len() - used, |(_, length)| length);
        let own = &c[used..used + length];
        let other = next.ok().and_then(|(command, _)| replace(t, &command));
        let done = other.as_deref().unwrap_or(own);
        let (reason, taken, more) = Model.batch(t, w, done, &mut r[written..]);
        if taken > 0 {
            used += length;
        }
        written += more;
        if reason != 0 || used == c.len() {
            return (reason, used, written);
        }
    }
}

/// As the model, but with another tie rule in the lists that 4C and 50 write.
pub fn listing_by(rule: TieRule, t: &mut [u8], w: &mut [u8], c: &[u8], r: &mut [u8]) -> Answer {
    let before = meaning(t);
    let answer = Model.batch(t, w, c, r);
    if let Ok(before) = before {
        rename(rule, before.book, &c[..answer.1], r);
    }
    answer
}

/// Renames the sites in the report of these commands.
fn rename(rule: TieRule, mut book: Book, mut commands: &[u8], mut report: &mut [u8]) {
    while let Ok((command, length)) = Command::read(commands) {
        let record = book.serve(&commands[..length]).report;
        let (written, later) = report.split_at_mut(record.len());
        let leg = match command {
            Command::List(leg) => Some(leg),
            Command::Print => book.leg,
            _ => None,
        };
        if let (Some(leg), Some((Record::List(list), _))) = (leg, Record::read(&record)) {
            let list = renamed(&leg, &book.sites(), &list, rule);
            written.copy_from_slice(&Record::List(list).bytes());
        }
        (commands, report) = (&commands[length..], later);
    }
}
