//! The book command by command: the order of the tests, every refusal, and what it leaves.

use reference::book::Book;
use reference::command::{
    Command, add, add_readings, begin, corner, list, move_readings, move_site, print, remove, stand,
};
use reference::grid::{HALF_WIDTH, LARGEST_DENOMINATOR, Leg, Position, Site};
use reference::reading::{Reading, Readings};
use reference::readings::{FIRST_OFF_GRID, INFINITY, LAST_ON_GRID, NO_NUMBER, ZERO, metres};
use reference::record::Record::{self, Accepted, List, Refused};
use reference::split::{Entry, split_list};

const LEG: Leg = Leg::new((0, 0), (10, 0));
const OTHER_LEG: Leg = Leg::new((0, 0), (0, 10));
const OFF_GRID: Leg = Leg::new((0, 0), (HALF_WIDTH + 1, 0));

/// Sites 1 and 2 and a standing leg whose list names both.
fn two_sites() -> Book {
    let mut book = Book::new();
    let sites = [Site::new(1, 0, 0), Site::new(2, 10, 0)];
    let answers = book.records(&[stand(LEG), add(sites[0]), add(sites[1])]);
    assert_eq!(answers, [Accepted, Accepted, Accepted]);
    book
}

fn full_table() -> Book {
    let mut book = Book::new();
    let nth = |number: u16| add(Site::new(number, i64::from(number), 0));
    let answers = book.records(&(1..=512).map(nth).collect::<Vec<_>>());
    assert_eq!(answers, vec![Accepted; 512]);
    book
}

/// The command is refused with this number and leaves the book.
fn assert_refused(book: &Book, command: Vec<u8>, number: u8) {
    let mut after = book.clone();
    assert_eq!(after.records(&[command]), [Refused(number)]);
    assert_eq!(after, *book);
}

#[test]
fn addition_tests_1_then_2_then_3_then_5() {
    let (book, full) = (two_sites(), full_table());
    assert_refused(&full, add(Site::new(0, HALF_WIDTH + 1, 0)), 1);
    assert_refused(&book, add(Site::new(0, 0, 0)), 1);
    assert_refused(&full, add(Site::new(1, HALF_WIDTH + 1, 0)), 2);
    assert_refused(&full, add(Site::new(600, HALF_WIDTH + 1, 0)), 2);
    assert_refused(&full, add(Site::new(1, 0, 0)), 3);
    assert_refused(&book, add(Site::new(1, 0, 0)), 3);
    assert_refused(&full, add(Site::new(600, 0, 0)), 5);
}

/// Readings that are finite and on the grid, off it, not finite, and both of the last two.
const OFF: Readings = Readings::new(ZERO, FIRST_OFF_GRID);
const NOT_FINITE: Readings = Readings::new(INFINITY, ZERO);
const BOTH: Readings = Readings::new(FIRST_OFF_GRID, NO_NUMBER[0]);

#[test]
fn addition_by_readings_tests_1_then_11_then_2_then_3_then_5() {
    let (book, full) = (two_sites(), full_table());
    let here = metres(0, 0);
    for readings in [here, OFF, NOT_FINITE, BOTH] {
        assert_refused(&full, add_readings(0, readings), 1);
        assert_refused(&book, add_readings(0, readings), 1);
    }
    for readings in [NOT_FINITE, BOTH] {
        assert_refused(&full, add_readings(1, readings), 11);
        assert_refused(&full, add_readings(600, readings), 11);
        assert_refused(&book, add_readings(600, readings), 11);
    }
    assert_refused(&full, add_readings(1, OFF), 2);
    assert_refused(&full, add_readings(600, OFF), 2);
    assert_refused(&full, add_readings(1, here), 3);
    assert_refused(&book, add_readings(1, here), 3);
    assert_refused(&full, add_readings(600, here), 5);
}

#[test]
fn removal_tests_1_then_4() {
    assert_refused(&two_sites(), remove(0), 1);
    assert_refused(&Book::new(), remove(0), 1);
    assert_refused(&two_sites(), remove(3), 4);
}

#[test]
fn move_tests_1_then_2_then_4() {
    let book = two_sites();
    assert_refused(&book, move_site(Site::new(0, HALF_WIDTH + 1, 0)), 1);
    assert_refused(&book, move_site(Site::new(0, 0, 0)), 1);
    assert_refused(&book, move_site(Site::new(3, HALF_WIDTH + 1, 0)), 2);
    assert_refused(&book, move_site(Site::new(1, HALF_WIDTH + 1, 0)), 2);
    assert_refused(&book, move_site(Site::new(3, 0, 0)), 4);
}

#[test]
fn move_by_readings_tests_1_then_11_then_2_then_4() {
    let book = two_sites();
    for readings in [metres(0, 0), OFF, NOT_FINITE, BOTH] {
        assert_refused(&book, move_readings(0, readings), 1);
    }
    for readings in [NOT_FINITE, BOTH] {
        assert_refused(&book, move_readings(3, readings), 11);
        assert_refused(&book, move_readings(1, readings), 11);
    }
    assert_refused(&book, move_readings(3, OFF), 2);
    assert_refused(&book, move_readings(1, OFF), 2);
    assert_refused(&book, move_readings(3, metres(0, 0)), 4);
}

#[test]
fn list_tests_2_then_6() {
    assert_refused(&Book::new(), list(OFF_GRID), 2);
    assert_refused(&two_sites(), list(OFF_GRID), 2);
    assert_refused(&Book::new(), list(LEG), 6);
}

#[test]
fn print_tests_7_then_6() {
    assert_refused(&Book::new(), print(), 7);
    let mut with_site = Book::new();
    with_site.records(&[add(Site::new(1, 0, 0))]);
    assert_refused(&with_site, print(), 7);
    let mut with_leg = Book::new();
    with_leg.records(&[stand(LEG)]);
    assert_refused(&with_leg, print(), 6);
}

/// The grid's ends on each axis, and the nearest and farthest coordinates off it.
const COORDINATES: [(i64, bool); 8] = [
    (-32768, false),
    (-HALF_WIDTH - 1, false),
    (-HALF_WIDTH, true),
    (0, true),
    (HALF_WIDTH - 1, true),
    (HALF_WIDTH, true),
    (HALF_WIDTH + 1, false),
    (32767, false),
];

#[test]
fn each_coordinate_of_a_site_is_tested() {
    for (coordinate, on_grid) in COORDINATES {
        let expected = vec![if on_grid { Accepted } else { Refused(2) }];
        for (east, north) in [(coordinate, -5), (6, coordinate)] {
            let answers = Book::new().records(&[add(Site::new(7, east, north))]);
            assert_eq!(answers, expected, "added at ({east},{north})");
            let answers = two_sites().records(&[move_site(Site::new(1, east, north))]);
            assert_eq!(answers, expected, "moved to ({east},{north})");
        }
    }
}

/// The grid's edge and beyond it, not a number, and the step that a site gets.
#[test]
fn each_reading_of_a_site_is_tested() {
    let cases = [
        (LAST_ON_GRID, Ok(HALF_WIDTH)),
        (LAST_ON_GRID.opposite(), Ok(-HALF_WIDTH)),
        (FIRST_OFF_GRID, Err(2)),
        (FIRST_OFF_GRID.opposite(), Err(2)),
        (Reading::of_metres(-150), Ok(-2)),
        (INFINITY, Err(11)),
        (INFINITY.opposite(), Err(11)),
        (NO_NUMBER[2], Err(11)),
    ];
    for (reading, expected) in cases {
        let at = |east_axis: bool, c: i64| match east_axis {
            true => Position::new(c, 3),
            false => Position::new(3, c),
        };
        for east_axis in [true, false] {
            let readings = match east_axis {
                true => Readings::new(reading, Reading::of_metres(250)),
                false => Readings::new(Reading::of_metres(250), reading),
            };
            let (mut added, mut moved) = (Book::new(), two_sites());
            let answers = [
                added.records(&[add_readings(7, readings)]),
                moved.records(&[move_readings(1, readings)]),
            ];
            let record = expected.map_or_else(Refused, |_| Accepted);
            assert_eq!(answers, [[record.clone()], [record]], "{readings:?}");
            let stands = expected.ok().map(|c| at(east_axis, c));
            assert_eq!(added.lines.get(&7), stands.as_ref());
            let stayed = Position::new(0, 0);
            assert_eq!(moved.lines[&1], stands.unwrap_or(stayed));
        }
    }
}

#[test]
fn each_coordinate_of_a_leg_is_tested() {
    for (c, on_grid) in COORDINATES {
        let legs = [
            Leg::new((c, 1), (2, 3)),
            Leg::new((1, c), (2, 3)),
            Leg::new((1, 2), (c, 3)),
            Leg::new((1, 2), (3, c)),
        ];
        for leg in legs {
            let mut book = two_sites();
            let answers = book.records(&[list(leg), stand(leg)]);
            if on_grid {
                let listed = List(split_list(&leg, &book.sites()));
                assert_eq!(answers, [listed, Accepted], "{leg:?}");
                assert_eq!(book.leg, Some(leg));
            } else {
                assert_eq!(answers, [Refused(2), Refused(2)], "{leg:?}");
                assert_eq!(book.leg, Some(LEG));
            }
        }
    }
}

#[test]
fn a_standing_leg_may_be_set_without_a_site() {
    let mut book = Book::new();
    assert_eq!(book.records(&[stand(LEG)]), [Accepted]);
    let answers = book.records(&[add(Site::new(9, 1, 1)), print()]);
    assert_eq!(answers, [Accepted, List(vec![Entry::new(9, 0, 1)])]);
}

#[test]
fn the_last_accepted_53_stands() {
    let mut book = two_sites();
    let at_north = add(Site::new(3, 0, 10));
    let answers = book.records(&[at_north, stand(OTHER_LEG), stand(OFF_GRID), print()]);
    let listed = List(vec![Entry::new(1, 0, 1), Entry::new(3, 1, 2)]);
    assert_eq!(answers, [Accepted, Accepted, Refused(2), listed]);
}

#[test]
fn a_site_may_be_moved_to_its_own_position() {
    let book = two_sites();
    let mut after = book.clone();
    let answers = after.records(&[move_site(Site::new(2, 10, 0))]);
    assert_eq!(answers, [Accepted]);
    assert_eq!(after, book);
}

#[test]
fn a_site_may_be_moved_in_a_full_table() {
    let mut book = full_table();
    let answers = book.records(&[move_site(Site::new(512, -7, 9)), list(LEG)]);
    assert_eq!(answers[0], Accepted);
    assert_eq!(book.lines.len(), 512);
    assert_eq!(book.lines[&512], Position::new(-7, 9));
}

#[test]
fn a_move_moves_the_lists() {
    let mut book = two_sites();
    let answers = book.records(&[move_site(Site::new(2, 6, 0)), print(), list(LEG)]);
    let listed = List(vec![Entry::new(1, 0, 1), Entry::new(2, 3, 10)]);
    assert_eq!(answers, [Accepted, listed.clone(), listed]);
}

#[test]
fn a_removed_number_may_be_added_again_elsewhere() {
    let mut book = two_sites();
    let again = add(Site::new(2, 4, 0));
    let answers = book.records(&[remove(2), remove(2), again, print()]);
    let listed = List(vec![Entry::new(1, 0, 1), Entry::new(2, 1, 5)]);
    assert_eq!(answers, [Accepted, Refused(4), Accepted, listed]);
}

#[test]
fn after_the_last_removal_lists_get_6_and_the_leg_stands() {
    let mut book = two_sites();
    let answers = book.records(&[remove(1), remove(2), print(), list(LEG)]);
    assert_eq!(answers, [Accepted, Accepted, Refused(6), Refused(6)]);
    assert_eq!(book.leg, Some(LEG));
}

#[test]
fn equal_positions_are_taken_and_the_lower_number_listed() {
    let mut book = Book::new();
    let both = [add(Site::new(65535, 3, 3)), add(Site::new(256, 3, 3))];
    assert_eq!(book.records(&both), [Accepted, Accepted]);
    assert_eq!(
        book.records(&[list(LEG)]),
        [List(vec![Entry::new(256, 0, 1)])]
    );
}

#[test]
fn commands_and_their_bytes() {
    let site = Site::new(0x0102, -2, 0x0304);
    let site_bytes = [0x02, 0x01, 0xFE, 0xFF, 0x04, 0x03];
    assert_eq!(add(site), [&[0x41], &site_bytes[..]].concat());
    assert_eq!(move_site(site), [&[0x4D], &site_bytes[..]].concat());
    assert_eq!(remove(0x0102), [0x44, 0x02, 0x01]);
    let leg = Leg::new((1, -1), (0x2EE0, -12000));
    let leg_bytes = [0x01, 0x00, 0xFF, 0xFF, 0xE0, 0x2E, 0x20, 0xD1];
    assert_eq!(list(leg), [&[0x4C], &leg_bytes[..]].concat());
    assert_eq!(stand(leg), [&[0x53], &leg_bytes[..]].concat());
    assert_eq!(print(), [0x50]);
    assert_eq!(begin(leg.e), [0x42, 0xE0, 0x2E, 0x20, 0xD1]);
    assert_eq!(corner(leg.s), [0x43, 0x01, 0x00, 0xFF, 0xFF]);
    let read = |bytes: &[u8]| Command::read(bytes);
    assert_eq!(read(&begin(leg.e)), Ok((Command::Begin(leg.e), 5)));
    assert_eq!(read(&corner(leg.s)), Ok((Command::Corner(leg.s), 5)));
    assert_eq!(Command::read(&list(leg)), Ok((Command::List(leg), 9)));
    assert_eq!(
        Command::read(&move_site(site)),
        Ok((Command::Move(site), 7))
    );
}

#[test]
fn a_list_record_is_read_back() {
    let entries = vec![
        Entry::new(0x0102, 0, 1),
        Entry::new(7, 0x01020304, LARGEST_DENOMINATOR),
    ];
    let bytes = [
        0x3D, 0x02, 0x00, 0x02, 0x01, 0x00, 0x00, 0x00, 0x00, 0x01, 0x00, 0x00, 0x00, //
        0x07, 0x00, 0x04, 0x03, 0x02, 0x01, 0x00, 0x40, 0x54, 0x89,
    ];
    assert_eq!(List(entries.clone()).bytes(), bytes);
    assert_eq!(Record::read(&bytes), Some((List(entries), bytes.len())));
    assert_eq!(Record::read_all(&bytes[..bytes.len() - 1]), None);
}
