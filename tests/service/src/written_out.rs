//! The promise of document 02, C-15, with no book beside the service: "A run whose readings are all
//! finite must answer, record for record, as the same run with the steps written out".

use crate::desk::Lent;
use crate::{Answer, Service};
use reference::book::{ALL_USED, NO_ROOM};
use reference::command::{ADD_READINGS, MOVE_READINGS};
use reference::grid::TABLE_LEN;
use reference::record::Record;
use reference::written_out::{length, written_out};
use std::collections::BTreeMap;

/// What was compared.
#[derive(Clone, Debug, Default)]
pub struct Compared {
    pub by_reason: BTreeMap<u32, usize>,
    /// The records of 61 and 6D.
    pub accepted: usize,
    pub by_refusal: BTreeMap<u8, usize>,
}

impl Compared {
    pub fn calls(&self) -> usize {
        self.by_reason.values().sum()
    }

    pub fn add(&mut self, other: &Compared) {
        for (reason, times) in &other.by_reason {
            *self.by_reason.entry(*reason).or_default() += times;
        }
        self.accepted += other.accepted;
        for (number, times) in &other.by_refusal {
            *self.by_refusal.entry(*number).or_default() += times;
        }
    }

    fn count(&mut self, mut commands: &[u8], reason: u32, records: &[Record]) {
        *self.by_reason.entry(reason).or_default() += 1;
        for record in records {
            let by_readings = [ADD_READINGS, MOVE_READINGS].contains(&commands[0]);
            commands = &commands[length(commands, 1)..];
            match record {
                Record::Accepted if by_readings => self.accepted += 1,
                Record::Refused(number) if by_readings => {
                    *self.by_refusal.entry(*number).or_default() += 1;
                }
                _ => {}
            }
        }
    }
}

/// A table that a run with readings left, and the one that the same run with steps left.
pub struct Pair<'s, S> {
    service: &'s S,
    by_readings: Vec<u8>,
    by_steps: Vec<u8>,
    pub compared: Compared,
}

impl<'s, S: Service> Pair<'s, S> {
    pub fn lay_out(service: &'s S) -> Self {
        let mut table = vec![0; TABLE_LEN];
        assert_eq!(service.lay_out(&mut table), u32::from(ALL_USED));
        Pair::of(service, table)
    }

    /// Both runs begin with this table.
    pub fn of(service: &'s S, table: Vec<u8>) -> Self {
        Pair {
            service,
            by_readings: table.clone(),
            by_steps: table,
            compared: Compared::default(),
        }
    }

    pub fn table(&self) -> &[u8] {
        &self.by_readings
    }

    /// The same call on both tables. All readings are finite.
    pub fn call(&mut self, commands: &[u8], work_len: usize, room: usize) -> Answer {
        let steps = written_out(commands).expect("all readings are finite");
        let nth = self.compared.calls();
        let mut lent = Lent::new(nth, work_len, room);
        let mut beside = Lent::new(nth, work_len, room);
        let answer = lent.batch(self.service, &mut self.by_readings, commands);
        let other = beside.batch(self.service, &mut self.by_steps, &steps);
        let (reason, used, written) = answer;
        let report = lent.written(written);
        assert_eq!(
            (reason, report),
            (other.0, beside.written(other.2)),
            "the same reason and report with the steps written out"
        );
        lent.assert_after(&answer, report);
        beside.assert_after(&other, report);
        let records = Record::read_all(report).expect("a report consists of whole records");
        assert_eq!(
            (used, other.1),
            (
                length(commands, records.len()),
                length(&steps, records.len())
            ),
            "each run's own bytes are used"
        );
        assert!(
            self.by_readings == self.by_steps,
            "the same table with the steps written out"
        );
        self.compared.count(commands, reason, &records);
        answer
    }

    /// Sends the rest again after 68, as a host would, each time with the next of these rooms; the last
    /// one has to be enough for any record. How far the commands were used.
    pub fn send(&mut self, commands: &[u8], work_len: usize, rooms: &[usize]) -> usize {
        let mut used = 0;
        let mut room = rooms.iter().copied();
        let mut last = 0;
        loop {
            last = room.next().unwrap_or(last);
            let (reason, more, _) = self.call(&commands[used..], work_len, last);
            used += more;
            if reason != u32::from(NO_ROOM) {
                return used;
            }
        }
    }
}
