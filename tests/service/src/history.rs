//! Random lists of batch calls from a laid-out table, and demand 3's comparison after them.

use crate::Service;
use crate::desk::Desk;
use crate::draw::{Pool, broken_off};
use reference::book::ALL_USED;
use reference::command::{add, list, print, stand};
use reference::grid::{MOST_SITES, Site, WORK_LEN, WRONG_WORK};
use reference::random::Random;
use reference::record::ACCEPTED;

const LITTLE_ROOM: [usize; 12] = [0, 1, 2, 3, 4, 12, 13, 14, 22, 23, 33, 60];

/// How many site numbers a run's commands are drawn from.
#[derive(Clone, Copy, Debug)]
pub enum Size {
    Few,
    Some,
    /// More than a table holds; the run begins with a full one.
    TooMany,
}

pub struct Run<'s, S> {
    pub desk: Desk<'s, S>,
    pub pool: Pool,
}

/// A run of calls of every kind: served, refused, broken off, and with wrong work buffers.
pub fn run<'s, S: Service>(random: &mut Random, service: &'s S, size: Size) -> Run<'s, S> {
    let numbers = match size {
        Size::Few => 1 + random.index(12),
        Size::Some => 13 + random.index(60),
        Size::TooMany => 2 * MOST_SITES,
    };
    let pool = Pool::new(random, numbers);
    let mut desk = Desk::lay_out(service);
    if let Size::TooMany = size {
        let additions = pool.additions(random);
        serve_in_batches(random, &mut desk, &additions);
    }
    for _ in 0..4 + random.index(7) {
        let count = random.index(20);
        let commands = pool.commands(random, count);
        let commands = broken_off(random, commands);
        call(random, &mut desk, &commands);
    }
    Run { desk, pool }
}

/// One call with buffers of all lengths; what found no room is now and then sent again.
pub fn call<S: Service>(random: &mut Random, desk: &mut Desk<S>, commands: &[u8]) {
    let needed = desk
        .book
        .clone()
        .call(commands, WORK_LEN, usize::MAX)
        .written;
    let work_len = if random.once_in(15) {
        random.pick(&WRONG_WORK)
    } else {
        WORK_LEN
    };
    let report_len = match random.between(1, 6) {
        1 => random.pick(&LITTLE_ROOM),
        2 => random.index(needed + 1),
        3 => needed.saturating_sub(1),
        4 => needed,
        _ => needed + random.index(40),
    };
    let reply = desk.call(commands, work_len, report_len);
    if random.once_in(2) {
        desk.serve(&commands[reply.used..]);
    }
}

/// Sends accepted commands in batches of any size, each with just the room for its records.
fn serve_in_batches<S: Service>(random: &mut Random, desk: &mut Desk<S>, commands: &[Vec<u8>]) {
    let mut rest = commands;
    while !rest.is_empty() {
        let (batch, later) = rest.split_at(1 + random.index(rest.len()));
        let reply = desk.call(&batch.concat(), WORK_LEN, batch.len());
        assert_eq!(reply.reason, ALL_USED);
        assert_eq!(reply.report, vec![ACCEPTED; batch.len()]);
        rest = later;
    }
}

/// Fills fresh tables with the book's lines in three orders and compares lists; returns how many.
pub fn compare_with_fresh<S: Service>(random: &mut Random, run: &mut Run<S>) -> usize {
    let Run { desk, pool } = run;
    let rising = desk.book.sites();
    let falling = rising.iter().rev().copied().collect();
    let mut shuffled = rising.clone();
    random.shuffle(&mut shuffled);
    let legs = [pool.leg(random), pool.leg(random)];
    let mut compared = 0;
    for lines in [rising, falling, shuffled] {
        let mut fresh = filled(random, desk.service(), &lines);
        assert_eq!(fresh.book.lines, desk.book.lines);
        for leg in legs {
            let listed = desk.serve(&list(leg));
            assert_eq!(fresh.serve(&list(leg)), listed);
            compared += 1;
        }
        compared += usize::from(compare_standing(desk, &mut fresh));
    }
    compared
}

fn filled<'s, S: Service>(random: &mut Random, service: &'s S, lines: &[Site]) -> Desk<'s, S> {
    let mut desk = Desk::lay_out(service);
    let additions: Vec<Vec<u8>> = lines.iter().copied().map(add).collect();
    serve_in_batches(random, &mut desk, &additions);
    desk
}

/// With a standing leg, 50 prints what 4C of that leg lists here and on the fresh table.
fn compare_standing<S: Service>(desk: &mut Desk<S>, fresh: &mut Desk<S>) -> bool {
    let Some(leg) = desk.book.leg else {
        return false;
    };
    let printed = desk.serve(&print()).report;
    assert_eq!(desk.serve(&list(leg)).report, printed);
    assert_eq!(fresh.serve(&list(leg)).report, printed);
    assert_eq!(fresh.serve(&stand(leg)).report, [ACCEPTED]);
    assert_eq!(fresh.serve(&print()).report, printed);
    true
}
