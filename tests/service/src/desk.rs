//! A desk: a table that a service keeps, beside the book that says what it must answer.
//!
//! Every call is compared in all that document 01 says of it: reason, counts, written bytes, and
//! what stands in each lent buffer afterwards. A listener hears what the service reports.

use crate::bytes::{TOUR, empty_table};
use crate::damage::stored_by;
use crate::table::{Meaning, meaning};
use crate::{Answer, Service};
use reference::book::{ALL_USED, Book, Reply, WRONG_LENGTH};
use reference::command::{CORNER, Command, LIST, PRINT};
use reference::grid::{MOST_SITES, TABLE_LEN, WORK_LEN};
use reference::listener::{Listener, Told};
use reference::record::{ENTRY_LEN, Record};
use reference::ties::number_alone;
use std::collections::BTreeMap;

/// The bytes of the longest record, a list of 512 entries.
pub const LONGEST_RECORD: usize = 3 + ENTRY_LEN * MOST_SITES;

pub struct Desk<'s, S> {
    service: &'s S,
    pub table: Vec<u8>,
    pub book: Book,
    listener: Listener,
    pub tally: Tally,
}

/// What came up in the calls of a desk.
#[derive(Clone, Debug, Default)]
pub struct Tally {
    pub calls: usize,
    pub by_reason: BTreeMap<u8, usize>,
    /// Commands that got a record, by their first byte.
    pub by_command: BTreeMap<u8, usize>,
    pub bytes_used: usize,
    pub bytes_written: usize,
    /// Tables whose rules were all tested.
    pub checked: usize,
    /// Those among them whose standing list numbers alone would not give.
    pub sided: usize,
    pub accepted: usize,
    pub lists: usize,
    pub longest_list: usize,
    /// Each refusal's number is an index; `REFUSALS` has them.
    pub by_refusal: [usize; 12],
    pub most_levels: usize,
    pub most_nodes: usize,
    pub tours: Told,
    /// Commands that change sites or the standing leg, or the tour alone.
    changes: usize,
    tour_changes: usize,
}

impl<'s, S: Service> Desk<'s, S> {
    /// With an empty table, laid out over bytes of another use.
    pub fn lay_out(service: &'s S) -> Self {
        let mut table = vec![0xEE; TABLE_LEN];
        assert_eq!(service.lay_out(&mut table), u32::from(ALL_USED));
        assert!(table == empty_table(), "laying out has no choice of bytes");
        Desk::with(service, table, Book::new())
    }

    /// With a sound table, whoever made it.
    pub fn take_up(service: &'s S, table: Vec<u8>) -> Self {
        let book = meaning(&table).expect("the table is sound").book;
        Desk::with(service, table, book)
    }

    fn with(service: &'s S, table: Vec<u8>, book: Book) -> Self {
        let tour = book.tour.map(|tour| (tour.corner, tour.remembered));
        Desk {
            service,
            table,
            listener: Listener::joining(&book.sites(), tour),
            book,
            tally: Tally::default(),
        }
    }

    pub fn service(&self) -> &'s S {
        self.service
    }

    /// One batch call, compared; returns the book's reply.
    pub fn call(&mut self, commands: &[u8], work_len: usize, report_len: usize) -> Reply {
        let expected = self.book.call(commands, work_len, report_len);
        let before = self.table.clone();
        let mut lent = Lent::new(self.tally.calls, work_len, report_len);
        let answer = lent.batch(self.service, &mut self.table, commands);
        let (used, written) = (expected.used, expected.written);
        assert_eq!(
            answer,
            (u32::from(expected.reason), used, written),
            "reason, used and written of {commands:02X?}"
        );
        lent.assert_after(&answer, &expected.report);
        let heard = self
            .listener
            .hear_call(&commands[..used], lent.written(written));
        assert_eq!(heard, Ok(()), "heard of {commands:02X?}");
        let (changes, tour_changes) = (self.tally.changes, self.tally.tour_changes);
        self.tally.count(commands, &expected);
        self.tally.tours = self.listener.told.clone();
        let tour_changed = self.tally.tour_changes > tour_changes;
        if self.tally.changes > changes {
            self.assert_sound();
        } else if tour_changed {
            assert_left_but_tour(&self.table, &before, commands);
            self.assert_sound();
        } else {
            assert!(self.table == before, "the table is left by {commands:02X?}");
        }
        expected
    }

    /// A call with the right work buffer and room for every record.
    pub fn serve(&mut self, commands: &[u8]) -> Reply {
        let may_list = |byte: &&u8| [LIST, PRINT, CORNER].contains(byte);
        let lists = commands.iter().filter(may_list).count();
        let room = 2 * commands.len() + LONGEST_RECORD * lists;
        self.call(commands, WORK_LEN, room)
    }

    /// The records of whole and known commands.
    pub fn records(&mut self, commands: &[Vec<u8>]) -> Vec<Record> {
        let reply = self.serve(&commands.concat());
        assert_eq!(reply.reason, ALL_USED, "each command is whole and known");
        Record::read_all(&reply.report).expect("a report consists of whole records")
    }

    fn assert_sound(&mut self) {
        match meaning(&self.table) {
            Err(broken) => panic!("the table breaks {broken:?}"),
            Ok(meaning) => {
                let Meaning {
                    book,
                    levels,
                    nodes,
                    ..
                } = meaning;
                let expected = &self.book;
                assert!(
                    book == *expected,
                    "the table holds {book:?}, not {expected:?}"
                );
                self.tally.checked += 1;
                let by_number = stored_by(number_alone, &self.table);
                self.tally.sided += usize::from(by_number != self.table);
                self.tally.most_levels = self.tally.most_levels.max(levels);
                self.tally.most_nodes = self.tally.most_nodes.max(nodes);
            }
        }
    }
}

impl Tally {
    fn count(&mut self, commands: &[u8], reply: &Reply) {
        self.calls += 1;
        *self.by_reason.entry(reply.reason).or_default() += 1;
        self.bytes_used += reply.used;
        self.bytes_written += reply.written;
        let mut used = &commands[..reply.used];
        for record in Record::read_all(&reply.report).expect("whole records") {
            let (command, length) = Command::read(used).expect("a command for each record");
            *self.by_command.entry(used[0]).or_default() += 1;
            used = &used[length..];
            match (command, &record) {
                (Command::Begin(_), Record::Accepted) | (Command::Corner(_), Record::List(_)) => {
                    self.tour_changes += 1;
                }
                (_, Record::Accepted) => self.changes += 1,
                _ => {}
            }
            match record {
                Record::Accepted => self.accepted += 1,
                Record::Refused(number) => self.by_refusal[usize::from(number)] += 1,
                Record::List(list) => {
                    self.lists += 1;
                    self.longest_list = self.longest_list.max(list.len());
                }
            }
        }
    }

    pub fn add(&mut self, other: &Tally) {
        self.calls += other.calls;
        add_each(&mut self.by_reason, &other.by_reason);
        add_each(&mut self.by_command, &other.by_command);
        self.bytes_used += other.bytes_used;
        self.bytes_written += other.bytes_written;
        self.checked += other.checked;
        self.sided += other.sided;
        self.accepted += other.accepted;
        self.lists += other.lists;
        self.longest_list = self.longest_list.max(other.longest_list);
        for (sum, times) in self.by_refusal.iter_mut().zip(other.by_refusal) {
            *sum += times;
        }
        self.most_levels = self.most_levels.max(other.most_levels);
        self.most_nodes = self.most_nodes.max(other.most_nodes);
        self.tours.add(&other.tours);
        self.changes += other.changes;
        self.tour_changes += other.tour_changes;
    }
}

/// 42 and 43 change the tour's words and nothing else.
fn assert_left_but_tour(table: &[u8], before: &[u8], commands: &[u8]) {
    let left =
        table[..TOUR.start] == before[..TOUR.start] && table[TOUR.end..] == before[TOUR.end..];
    assert!(left, "all but the tour is left by {commands:02X?}");
}

fn add_each(sums: &mut BTreeMap<u8, usize>, more: &BTreeMap<u8, usize>) {
    for (key, times) in more {
        *sums.entry(*key).or_default() += times;
    }
}

/// A call's work and report buffers, filled with a byte that changes from call to call.
pub struct Lent {
    fill: u8,
    work: Vec<u8>,
    report: Vec<u8>,
}

impl Lent {
    pub fn new(nth: usize, work_len: usize, report_len: usize) -> Self {
        // Never 0, since 0 is what the work buffer is to be.
        let fill = u8::try_from(1 + nth % 255).expect("a remainder by 255");
        Lent {
            fill,
            work: vec![fill; work_len],
            report: vec![fill; report_len],
        }
    }

    pub fn batch(&mut self, service: &impl Service, table: &mut [u8], commands: &[u8]) -> Answer {
        service.batch(table, &mut self.work, commands, &mut self.report)
    }

    /// So many bytes of the report.
    pub fn written(&self, written: usize) -> &[u8] {
        &self.report[..written]
    }

    /// The report begins with these bytes and is left behind them; the work buffer is zero, or
    /// left after 64.
    pub fn assert_after(&self, answer: &Answer, report: &[u8]) {
        let (written, rest) = self.report.split_at(report.len());
        assert!(
            written == report,
            "{written:02X?} is written, not {report:02X?}"
        );
        assert!(
            rest.iter().all(|byte| *byte == self.fill),
            "the rest of the report is left"
        );
        let after = if answer.0 == u32::from(WRONG_LENGTH) {
            self.fill
        } else {
            0
        };
        assert!(
            self.work.iter().all(|byte| *byte == after),
            "the work buffer is {after}"
        );
    }
}
