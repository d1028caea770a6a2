//! The four lent buffers: room that is exact, short by one byte or none at all, the longest
//! lists, and calls of a million bytes.

use reference::book::{ALL_USED, NO_ROOM};
use reference::command::{
    add, add_readings, begin, corner, list, move_readings, move_site, print, remove, stand,
};
use reference::grid::{
    HALF_WIDTH, LARGEST_DENOMINATOR, Leg, MOST_SITES, Position, Site, TABLE_LEN, WORK_LEN,
};
use reference::random::Random;
use reference::reading::Readings;
use reference::readings::{FIRST_OFF_GRID, INFINITY, ZERO, metres};
use reference::record::Record;
use service::bytes::empty_table;
use service::desk::{Desk, LONGEST_RECORD};
use service::draw::Pool;
use service::{Service, on_each_service};

on_each_service!(
    laying_out_writes_the_empty_table_over_anything,
    no_commands_give_0_and_both_counts_0,
    one_length_of_the_work_buffer_is_taken,
    every_record_needs_just_its_own_length,
    every_report_length_up_to_all_records,
    all_512_sites_are_listed,
    the_longest_records_fill_the_report,
    a_million_bytes_in_one_call,
);

/// From corner to corner of the grid's middle, west to east.
const LONG_LEG: Leg = Leg::new((-HALF_WIDTH, 0), (HALF_WIDTH, 0));

/// Site 1 is held and a leg stands.
fn one_site(service: &impl Service) -> Desk<'_, impl Service> {
    let mut desk = Desk::lay_out(service);
    let commands = [stand(Leg::new((0, 0), (10, 0))), add(Site::new(1, 2, 3))];
    desk.serve(&commands.concat());
    desk
}

fn laying_out_writes_the_empty_table_over_anything(service: &impl Service) {
    let used = one_site(service).table;
    for before in [used, vec![0; TABLE_LEN], vec![0xFF; TABLE_LEN]] {
        let mut table = before;
        assert_eq!(service.lay_out(&mut table), 0);
        assert!(table == empty_table());
    }
}

fn no_commands_give_0_and_both_counts_0(service: &impl Service) {
    for report_len in [0, 1, LONGEST_RECORD, TABLE_LEN] {
        let reply = one_site(service).call(&[], WORK_LEN, report_len);
        assert_eq!((reply.reason, reply.used, reply.written), (ALL_USED, 0, 0));
    }
}

/// Every length up to the one of document 01, before C-21, and a byte more.
fn one_length_of_the_work_buffer_is_taken(service: &impl Service) {
    let mut desk = one_site(service);
    let commands = [print(), remove(2)].concat();
    for work_len in 0..=4 * WORK_LEN + 1 {
        let reply = desk.call(&commands, work_len, LONGEST_RECORD);
        assert_eq!(reply.reason == ALL_USED, work_len == WORK_LEN, "{work_len}");
    }
}

/// Accepted, refused and listed: exact room, one byte less, and none.
fn every_record_needs_just_its_own_length(service: &impl Service) {
    let leg = Leg::new((5, 5), (6, 6));
    let commands = [
        (add(Site::new(2, 1, 1)), 1),
        (remove(1), 1),
        (move_site(Site::new(1, 9, 9)), 1),
        (stand(leg), 1),
        (add(Site::new(1, 1, 1)), 2),
        (remove(2), 2),
        (stand(Leg::new((0, 0), (0, HALF_WIDTH + 1))), 2),
        (begin(leg.s), 1),
        (begin(Position::new(0, HALF_WIDTH + 1)), 2),
        (corner(leg.e), 2),
        (add_readings(2, metres(100, 100)), 1),
        (move_readings(1, metres(900, 900)), 1),
        (add_readings(0, metres(0, 0)), 2),
        (add_readings(2, Readings::new(INFINITY, ZERO)), 2),
        (move_readings(1, Readings::new(ZERO, INFINITY)), 2),
        (move_readings(1, Readings::new(ZERO, FIRST_OFF_GRID)), 2),
        (add_readings(1, metres(0, 0)), 2),
        (move_readings(2, metres(0, 0)), 2),
        (list(leg), 13),
        (print(), 13),
    ];
    for (command, length) in commands {
        for room in [0, length - 1] {
            let reply = one_site(service).call(&command, WORK_LEN, room);
            assert_eq!((reply.reason, reply.used, reply.written), (NO_ROOM, 0, 0));
        }
        for room in [length, length + 1] {
            let reply = one_site(service).call(&command, WORK_LEN, room);
            let expected = (ALL_USED, command.len(), length);
            assert_eq!((reply.reason, reply.used, reply.written), expected);
        }
    }
}

/// The call stops before the first record that does not fit, and the rest can follow.
fn every_report_length_up_to_all_records(service: &impl Service) {
    let mut random = Random::new(101);
    let pool = Pool::new(&mut random, 12);
    let start = [pool.additions(&mut random).concat(), stand(LONG_LEG)].concat();
    let commands = pool.commands(&mut random, 60).concat();
    let mut desk = Desk::lay_out(service);
    desk.serve(&start);
    let needed = desk.serve(&commands).written;
    assert!(needed >= 200);
    let mut stopped = 0;
    for report_len in 0..=needed + 1 {
        let mut desk = Desk::lay_out(service);
        desk.serve(&start);
        let reply = desk.call(&commands, WORK_LEN, report_len);
        assert_eq!(reply.reason == NO_ROOM, report_len < needed);
        stopped += usize::from(reply.reason == NO_ROOM);
        desk.serve(&commands[reply.used..]);
    }
    assert_eq!(stopped, needed);
}

/// 512 sites whose list along the leg has 512 entries, beside the leg where `aside` says.
fn all_listed(service: &impl Service, leg: Leg, aside: fn(i64) -> i64) -> Desk<'_, impl Service> {
    let nth = |k: i64| {
        add(Site::new(
            u16::try_from(k).unwrap(),
            31 * k - 7_952,
            aside(k),
        ))
    };
    let mut desk = Desk::lay_out(service);
    desk.records(&[stand(leg)]);
    let additions: Vec<Vec<u8>> = (1..=512).map(nth).collect();
    assert_eq!(desk.records(&additions), vec![Record::Accepted; MOST_SITES]);
    for command in [list(leg), print()] {
        let reply = desk.call(&command, WORK_LEN, LONGEST_RECORD);
        assert_eq!(reply.written, LONGEST_RECORD);
        let reply = desk.call(&command, WORK_LEN, LONGEST_RECORD - 1);
        assert_eq!((reply.reason, reply.written), (NO_ROOM, 0));
    }
    desk
}

/// On the leg, on a parabola beside it, and in a zigzag along a slanting one.
fn all_512_sites_are_listed(service: &impl Service) {
    assert_eq!(LONGEST_RECORD, 5_123);
    all_listed(service, LONG_LEG, |_| 0);
    all_listed(service, LONG_LEG, |k| (k - 256) * (k - 256) / 400);
    let slanting = Leg::new((-HALF_WIDTH, -3), (HALF_WIDTH, 4));
    let mut desk = all_listed(service, slanting, |k| k % 7 - 3);
    let Record::List(list) = &desk.records(&[print()])[0] else {
        panic!("a list is printed");
    };
    let largest = list.iter().map(|entry| entry.start.denominator).max();
    assert!(largest > Some(400_000) && largest <= Some(LARGEST_DENOMINATOR));
    // A full table with all listed: a move and a removal, and the list without the site.
    let commands = [
        move_site(Site::new(256, HALF_WIDTH, HALF_WIDTH)),
        print(),
        remove(1),
        print(),
    ];
    assert_eq!(
        desk.serve(&commands.concat()).written,
        1 + 5_113 + 1 + 5_103
    );
}

/// Several lists of 512 entries in one call, and 68 after as many as fit.
fn the_longest_records_fill_the_report(service: &impl Service) {
    let mut desk = all_listed(service, LONG_LEG, |_| 0);
    let commands = [print(), list(LONG_LEG), print(), print()].concat();
    for (lists, used) in [(0, 0), (1, 1), (2, 10), (3, 11), (4, 12)] {
        for more in [0, 1, LONGEST_RECORD - 1] {
            let reply = desk.call(&commands, WORK_LEN, lists * LONGEST_RECORD + more);
            let reason = if lists == 4 { ALL_USED } else { NO_ROOM };
            let expected = (reason, used, lists * LONGEST_RECORD);
            assert_eq!((reply.reason, reply.used, reply.written), expected);
        }
    }
}

fn a_million_bytes_in_one_call(service: &impl Service) {
    let mut random = Random::new(102);
    let pool = Pool::new(&mut random, 15);
    let mut desk = Desk::lay_out(service);
    let commands = pool.commands(&mut random, 200_000).concat();
    assert!(commands.len() >= 1_000_000);
    let reply = desk.call(&commands, WORK_LEN, 8_000_000);
    assert_eq!((reply.reason, reply.used), (ALL_USED, commands.len()));
    assert!(reply.written >= 500_000);
}
