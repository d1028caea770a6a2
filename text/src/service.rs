//! The proved service with its three buffers: commands in, records out.

use crate::command::Command;
use crate::record::{Entry, Record};
use crate::status::Failure;
use binding::call;
use binding::layout::{TABLE_LEN, WORK_LEN};

/// Room for a dozen of the longest records (5,123 bytes): each call tests the whole table.
const REPORT_LEN: usize = 65_536;

const ALL_USED: u32 = 0;
pub const WRONG_LENGTH: u32 = 64;
/// A rule on layout, sites, tour or tree.
pub const BROKEN_TABLE: u32 = 65;
const NO_ROOM: u32 = 68;
/// The standing leg or list is wrong, and no other rule is broken: sites and tour can be read.
pub const BROKEN_STANDING: u32 = 69;

pub struct Service {
    table: Vec<u8>,
    work: Vec<u8>,
    report: Vec<u8>,
}

impl Service {
    pub fn new() -> Result<Self, Failure> {
        let mut table = vec![0; TABLE_LEN];
        match call::lay_out(&mut table) {
            ALL_USED => Ok(Service {
                table,
                work: vec![0; WORK_LEN],
                report: vec![0; REPORT_LEN],
            }),
            reason => Err(Failure::Ended(reason)),
        }
    }

    /// On a table that somebody kept; the reason where it is refused.
    pub fn take_up(table: Vec<u8>) -> Result<Self, u32> {
        let mut service = Service {
            table,
            work: vec![0; WORK_LEN],
            report: vec![0; REPORT_LEN],
        };
        let Service {
            table,
            work,
            report,
        } = &mut service;
        match call::batch(table, work, &[], report).reason {
            ALL_USED => Ok(service),
            reason => Err(reason),
        }
    }

    /// An empty table with a 1 at this byte.
    #[cfg(test)]
    pub fn broken(at: usize) -> Self {
        let mut service = Service::new().unwrap();
        service.table[at] = 1;
        service
    }

    pub fn table(&self) -> &[u8] {
        &self.table
    }

    /// What the service lists at this command; nothing where it refuses.
    pub fn list(&mut self, command: &Command) -> Result<Vec<Entry>, Failure> {
        let lists = self.lists(std::slice::from_ref(command))?;
        Ok(lists.into_iter().flatten().collect())
    }

    /// The same of each command in turn.
    pub fn lists(&mut self, commands: &[Command]) -> Result<Vec<Vec<Entry>>, Failure> {
        let (mut bytes, mut lists) = (Vec::new(), Vec::new());
        commands
            .iter()
            .for_each(|command| command.write(&mut bytes));
        self.serve(&bytes, |record| {
            lists.push(match record {
                Record::List(entries) => entries,
                _ => Vec::new(),
            });
            Ok(())
        })?;
        Ok(lists)
    }

    /// Hands over the record of each command in turn; the commands are whole and known.
    pub fn serve(
        &mut self,
        mut commands: &[u8],
        mut tell: impl FnMut(Record) -> Result<(), Failure>,
    ) -> Result<(), Failure> {
        loop {
            let answer = call::batch(&mut self.table, &mut self.work, commands, &mut self.report);
            let report = self.report.get(..answer.written);
            for_each_record(report.ok_or(Failure::Report)?, &mut tell)?;
            commands = commands.get(answer.used..).ok_or(Failure::Report)?;
            match answer.reason {
                ALL_USED => return Ok(()),
                // The report is empty again, so the same command finds room.
                NO_ROOM if answer.used > 0 => {}
                reason => return Err(Failure::Ended(reason)),
            }
        }
    }
}

fn for_each_record(
    mut report: &[u8],
    tell: &mut impl FnMut(Record) -> Result<(), Failure>,
) -> Result<(), Failure> {
    while !report.is_empty() {
        let Ok(Some((record, length))) = Record::read(report) else {
            return Err(Failure::Report);
        };
        tell(record)?;
        report = &report[length..];
    }
    Ok(())
}

#[cfg(test)]
mod tests {
    use super::*;
    use binding::layout::{ENTRIES_LISTED, SITES_HELD};
    use reference::command::{add, list, print, stand};
    use reference::grid::{HALF_WIDTH, Leg, Site, spread};

    fn serve(service: &mut Service, commands: &[u8]) -> (Vec<Record>, Option<u32>) {
        let mut records = Vec::new();
        let end = service.serve(commands, |record| {
            records.push(record);
            Ok(())
        });
        match end {
            Ok(()) => (records, None),
            Err(Failure::Ended(reason)) => (records, Some(reason)),
            Err(failure) => panic!("{failure}"),
        }
    }

    #[test]
    fn records_in_the_order_of_the_commands() {
        let mut service = Service::new().unwrap();
        let site = add(Site::new(1, 2, 3));
        let commands = [print(), site.clone(), site].concat();
        let records = [Record::Refused(7), Record::Accepted, Record::Refused(3)];
        assert_eq!(serve(&mut service, &commands), (records.to_vec(), None));
        assert_eq!(serve(&mut service, &[]), (vec![], None));
    }

    #[test]
    fn a_full_report_is_emptied_and_the_batch_goes_on() {
        let mut service = Service::new().unwrap();
        let sites = (1..=512).map(|number| Site::new(number, spread(number.into()), 0));
        let leg = Leg::new((-HALF_WIDTH, 0), (HALF_WIDTH, 0));
        let mut commands: Vec<u8> = sites.flat_map(add).collect();
        commands.extend(stand(leg));
        commands.extend(list(leg).repeat(40));
        commands.extend(print());
        let (records, end) = serve(&mut service, &commands);
        assert_eq!((records.len(), end), (554, None));
        for record in &records[513..] {
            assert!(matches!(record, Record::List(list) if list.len() == 512));
        }
    }

    #[test]
    fn a_broken_table_ends_with_65_or_69_and_no_record() {
        let mut service = Service::broken(SITES_HELD);
        assert_eq!(serve(&mut service, &print()), (vec![], Some(65)));
        let mut service = Service::broken(ENTRIES_LISTED);
        assert_eq!(serve(&mut service, &print()), (vec![], Some(69)));
    }

    #[test]
    fn buffers_of_wrong_length_end_with_64() {
        let mut service = Service::new().unwrap();
        service.work.pop();
        assert_eq!(serve(&mut service, &print()), (vec![], Some(64)));
        let mut service = Service::new().unwrap();
        service.table.pop();
        assert_eq!(serve(&mut service, &print()), (vec![], Some(64)));
    }

    #[test]
    fn other_reasons_end_after_the_records_before_them() {
        let refused = vec![Record::Refused(7)];
        let mut service = Service::new().unwrap();
        assert_eq!(serve(&mut service, b"P?"), (refused.clone(), Some(66)));
        assert_eq!(serve(&mut service, b"PD\x01"), (refused.clone(), Some(67)));
        service.report.truncate(3);
        assert_eq!(
            serve(&mut service, b"PPPP"),
            (vec![Record::Refused(7); 4], None)
        );
        service.report.truncate(1);
        assert_eq!(serve(&mut service, b"P"), (vec![], Some(68)));
    }

    #[test]
    fn a_failure_to_tell_ends_the_serving() {
        let mut service = Service::new().unwrap();
        let end = service.serve(b"PPP", |_| Err(Failure::Report));
        assert!(matches!(end, Err(Failure::Report)));
    }
}
