//! The promise of document 02, C-13, with no book beside the service: a listener hears its commands and
//! records, and 4C's list of a leg is what the service itself answers there and then.

use crate::Service;
use crate::desk::{LONGEST_RECORD, Lent};
use crate::draw::Pool;
use reference::book::{ALL_USED, NO_ROOM};
use reference::command::{self, Command};
use reference::grid::{Leg, TABLE_LEN, WORK_LEN};
use reference::listener::{Listener, Told};
use reference::random::Random;
use reference::record::Record;
use reference::split::Entry;

struct Hearing<'s, S> {
    service: &'s S,
    table: Vec<u8>,
    listener: Listener,
}

/// Calls of whole commands on a table of this pool's sites; what was heard of tours.
pub fn hear_alone(service: &impl Service, random: &mut Random, pool: &Pool, calls: usize) -> Told {
    let mut table = vec![0; TABLE_LEN];
    assert_eq!(service.lay_out(&mut table), u32::from(ALL_USED));
    let mut hearing = Hearing {
        service,
        table,
        listener: Listener::new(),
    };
    hearing.call(&pool.additions(random), usize::MAX);
    for _ in 0..calls {
        let commands = match random.between(1, 2) {
            1 => pool.tour(random),
            _ => pool.commands(random, 6),
        };
        // What found no room is sent again.
        let room = random.pick(&[0, 3, 13, 33, usize::MAX]);
        let done = hearing.call(&commands, room);
        hearing.call(&commands[done..], usize::MAX);
    }
    hearing.listener.told
}

impl<S: Service> Hearing<'_, S> {
    /// One call; how many commands got a record.
    fn call(&mut self, commands: &[Vec<u8>], room: usize) -> usize {
        // A copy of the table goes through the same commands one by one, so that it can be asked.
        let mut copy = self.table.clone();
        let room = room.min(LONGEST_RECORD * commands.len());
        let records = batch(self.service, &mut self.table, &commands.concat(), room);
        self.listener.next_call();
        for (bytes, record) in commands.iter().zip(&records) {
            let (command, _) = Command::read(bytes).expect("whole and known");
            let leg = self.listener.leg_to(&command);
            let listed = leg.map_or(vec![], |leg| listed(self.service, &mut copy, leg));
            let heard = self.listener.hear_beside(&command, record, &listed);
            assert_eq!(heard, Ok(()), "heard of {command:?}");
            batch(self.service, &mut copy, bytes, LONGEST_RECORD);
        }
        records.len()
    }
}

/// The records of a call, which ends with the last command or for want of room.
fn batch(service: &impl Service, table: &mut [u8], commands: &[u8], room: usize) -> Vec<Record> {
    let mut lent = Lent::new(room, WORK_LEN, room);
    let (reason, _, written) = lent.batch(service, table, commands);
    assert!([ALL_USED, NO_ROOM].map(u32::from).contains(&reason));
    Record::read_all(lent.written(written)).expect("a report consists of whole records")
}

/// What 4C lists; nothing where it is refused.
fn listed(service: &impl Service, table: &mut [u8], leg: Leg) -> Vec<Entry> {
    match &batch(service, table, &command::list(leg), LONGEST_RECORD)[..] {
        [Record::List(list)] => list.clone(),
        _ => vec![],
    }
}
