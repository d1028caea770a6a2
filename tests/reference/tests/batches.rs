//! How a call ends: reasons 0, 64, 66, 67 and 68, and the counts that go with them.

use reference::book::{ALL_USED, Book, CUT_COMMAND, NO_ROOM, Reply, UNKNOWN_COMMAND, WRONG_LENGTH};
use reference::command::{
    MARKS, add, add_readings, begin, corner, list, move_readings, move_site, print, remove, stand,
};
use reference::grid::{HALF_WIDTH, Leg, Position, REPORT_LEN, Site, WORK_LEN, WRONG_WORK};
use reference::reading::Readings;
use reference::readings::{FIRST_OFF_GRID, INFINITY, ZERO, metres};

const LEG: Leg = Leg::new((0, 0), (10, 0));
const OTHER_LEG: Leg = Leg::new((5, 5), (6, 6));
const SITE: Site = Site::new(1, 2, 3);

fn reply(reason: u8, used: usize, report: &[u8]) -> Reply {
    Reply {
        reason,
        used,
        written: report.len(),
        report: report.to_vec(),
    }
}

/// Site 1 is held and a leg stands.
fn one_site() -> Book {
    let mut book = Book::new();
    let setting_up = [stand(LEG), add(SITE)].concat();
    assert_eq!(book.serve(&setting_up), reply(ALL_USED, 16, &[0x2B, 0x2B]));
    book
}

/// The call gives this reply and leaves the book.
fn assert_left(book: &Book, commands: &[u8], report_len: usize, expected: Reply) {
    let mut after = book.clone();
    assert_eq!(after.call(commands, WORK_LEN, report_len), expected);
    assert_eq!(after, *book);
}

#[test]
fn no_commands_give_0_and_both_counts_0() {
    for report_len in [0, 1, REPORT_LEN] {
        assert_left(&one_site(), &[], report_len, reply(ALL_USED, 0, &[]));
    }
}

#[test]
fn a_work_buffer_of_wrong_length_gives_64_before_all_else() {
    let commands = [vec![], add(Site::new(2, 0, 0)), vec![0xFF], vec![0x41]];
    for work_len in WRONG_WORK {
        for (commands, report_len) in commands.iter().zip([REPORT_LEN, 0, 1, 2]) {
            let mut book = one_site();
            let answer = book.call(commands, work_len, report_len);
            assert_eq!(answer, reply(WRONG_LENGTH, 0, &[]), "{work_len}");
            assert_eq!(book, one_site());
        }
    }
    let answer = one_site().call(&remove(1), WORK_LEN, REPORT_LEN);
    assert_eq!(answer, reply(ALL_USED, 3, &[0x2B]));
}

#[test]
fn each_of_the_other_246_bytes_is_unknown() {
    let known = [0x41, 0x44, 0x4D, 0x4C, 0x53, 0x50, 0x42, 0x43, 0x61, 0x6D];
    assert_eq!(MARKS, known);
    let unknown: Vec<u8> = (0..=255).filter(|byte| !known.contains(byte)).collect();
    assert_eq!(unknown.len(), 246);
    for byte in unknown {
        // Long enough for any command, and alone.
        let expected = reply(UNKNOWN_COMMAND, 0, &[]);
        assert_left(&one_site(), &[byte; 12], REPORT_LEN, expected.clone());
        assert_left(&one_site(), &[byte], 0, expected);
    }
}

#[test]
fn an_unknown_byte_keeps_what_came_before_and_drops_what_follows() {
    let commands = [remove(1), remove(1), vec![0x00], add(SITE)].concat();
    let mut book = one_site();
    let expected = reply(UNKNOWN_COMMAND, 6, &[0x2B, 0x21, 0x04]);
    assert_eq!(book.serve(&commands), expected);
    assert!(book.lines.is_empty());
}

#[test]
fn operands_cut_short_at_any_byte_give_67() {
    let site = Site::new(2, 1, 1);
    let commands = [
        add(site),
        remove(1),
        move_site(SITE),
        list(LEG),
        stand(OTHER_LEG),
        begin(LEG.s),
        corner(LEG.e),
        add_readings(2, metres(100, 100)),
        move_readings(1, metres(200, 300)),
    ];
    let lengths = commands.each_ref().map(Vec::len);
    assert_eq!(lengths, [7, 3, 7, 9, 9, 5, 5, 11, 11]);
    for command in commands {
        for length in 1..command.len() {
            let cut = &command[..length];
            assert_left(&one_site(), cut, REPORT_LEN, reply(CUT_COMMAND, 0, &[]));
            let after_another = [&print()[..], cut].concat();
            let listed = one_site().serve(&print()).report;
            let expected = reply(CUT_COMMAND, 1, &listed);
            assert_left(&one_site(), &after_another, REPORT_LEN, expected);
        }
    }
}

#[test]
fn a_cut_command_gives_67_before_its_tests_and_before_68() {
    let refused_when_whole = [
        add(Site::new(0, 0, 0)),
        remove(0),
        list(Leg::new((HALF_WIDTH + 1, 0), (0, 0))),
        begin(Position::new(0, HALF_WIDTH + 1)),
        corner(LEG.s),
        add_readings(0, metres(0, 0)),
        add_readings(2, Readings::new(INFINITY, ZERO)),
        move_readings(1, Readings::new(ZERO, FIRST_OFF_GRID)),
    ];
    for command in refused_when_whole {
        let cut = &command[..command.len() - 1];
        assert_left(&one_site(), cut, 0, reply(CUT_COMMAND, 0, &[]));
    }
}

#[test]
fn without_room_for_2b_a_change_is_not_done() {
    let changes = [
        add(Site::new(2, 1, 1)),
        remove(1),
        move_site(Site::new(1, 9, 9)),
        stand(OTHER_LEG),
        begin(LEG.s),
        add_readings(2, metres(100, 100)),
        move_readings(1, metres(900, 900)),
    ];
    for change in changes {
        assert_left(&one_site(), &change, 0, reply(NO_ROOM, 0, &[]));
        let mut book = one_site();
        let expected = reply(ALL_USED, change.len(), &[0x2B]);
        assert_eq!(book.call(&change, WORK_LEN, 1), expected);
        assert_ne!(book, one_site());
    }
}

#[test]
fn refusal_records_need_room_for_two_bytes() {
    let off_grid = Leg::new((0, 0), (0, HALF_WIDTH + 1));
    let refused = [
        (add(Site::new(0, 0, 0)), 1),
        (stand(off_grid), 2),
        (add(SITE), 3),
        (remove(2), 4),
        (begin(off_grid.e), 2),
        (corner(LEG.s), 8),
        (add_readings(0, metres(0, 0)), 1),
        (add_readings(2, Readings::new(ZERO, INFINITY)), 11),
        (move_readings(1, Readings::new(INFINITY, ZERO)), 11),
        (move_readings(1, Readings::new(FIRST_OFF_GRID, ZERO)), 2),
        (add_readings(1, metres(0, 0)), 3),
        (move_readings(2, metres(0, 0)), 4),
    ];
    for (command, number) in refused {
        for room in [0, 1] {
            assert_left(&one_site(), &command, room, reply(NO_ROOM, 0, &[]));
        }
        let expected = reply(ALL_USED, command.len(), &[0x21, number]);
        assert_left(&one_site(), &command, 2, expected);
    }
    assert_left(&Book::new(), &list(LEG), 1, reply(NO_ROOM, 0, &[]));
    assert_left(&Book::new(), &list(LEG), 2, reply(ALL_USED, 9, &[0x21, 6]));
    assert_left(&Book::new(), &print(), 1, reply(NO_ROOM, 0, &[]));
    assert_left(&Book::new(), &print(), 2, reply(ALL_USED, 1, &[0x21, 7]));
}

#[test]
fn a_list_record_exactly_as_long_as_the_room_fits() {
    let mut book = one_site();
    book.serve(&add(Site::new(2, 7, 1)));
    for command in [list(LEG), print()] {
        let report = book.serve(&command).report;
        assert_eq!(report.len(), 23);
        let expected = reply(ALL_USED, command.len(), &report);
        assert_left(&book, &command, 23, expected);
        assert_left(&book, &command, 22, reply(NO_ROOM, 0, &[]));
    }
}

#[test]
fn room_is_what_earlier_records_left() {
    let commands = [print(), remove(1), remove(1), stand(OTHER_LEG)].concat();
    let list_and_removal = [one_site().serve(&print()).report, vec![0x2B]].concat();
    assert_eq!(list_and_removal.len(), 14);
    // One byte is left, and 21 04 needs two.
    let mut book = one_site();
    let expected = reply(NO_ROOM, 4, &list_and_removal);
    assert_eq!(book.call(&commands, WORK_LEN, 15), expected);
    assert!(book.lines.is_empty());
    assert_eq!(book.leg, Some(LEG));
    // The 2B that would still fit does not overtake the refusal.
    let rest = &commands[4..];
    let expected = reply(ALL_USED, rest.len(), &[0x21, 0x04, 0x2B]);
    assert_eq!(book.call(rest, WORK_LEN, 3), expected);
    assert_eq!(book.leg, Some(OTHER_LEG));
}

#[test]
fn an_unknown_byte_without_room_gives_66() {
    let commands = [remove(1), vec![0x2B]].concat();
    let mut book = one_site();
    let expected = reply(UNKNOWN_COMMAND, 3, &[0x2B]);
    assert_eq!(book.call(&commands, WORK_LEN, 1), expected);
}
