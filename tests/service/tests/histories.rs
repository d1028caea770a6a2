//! Random lists of batch calls: each call against the site book, each run against fresh tables.

use reference::book::{Book, REFUSALS};
use reference::command::{
    ADD_READINGS, CORNER, MOVE_READINGS, add, add_readings, begin, corner, list, move_readings,
    move_site, remove, stand,
};
use reference::grid::{HALF_WIDTH, Leg, Site, TABLE_LEN, WORK_LEN, WRONG_WORK};
use reference::random::Random;
use reference::reading::Readings;
use reference::readings::{FIRST_OFF_GRID, INFINITY, ZERO, metres};
use reference::record::Record::{Accepted, List};
use service::desk::{Desk, Lent, Tally};
use service::draw::{Pool, broken_off};
use service::history::{Size, compare_with_fresh, run};
use service::{Service, on_each_service};

/// In each of two tests, which run side by side.
const RUNS: usize = 2_500;
/// One run in so many has some numbers, or too many; the others have few.
const WITH_SOME: usize = 6;
const WITH_TOO_MANY: usize = 50;

on_each_service!(
    runs_answer_as_the_book_and_as_fresh_tables,
    more_runs_answer_as_the_book_and_as_fresh_tables,
    a_table_of_wrong_length_gives_64,
    a_call_that_accepts_nothing_leaves_every_byte,
    what_is_not_accepted_leaves_no_trace_among_changes,
);

fn size(nth: usize) -> Size {
    match nth {
        _ if nth % WITH_TOO_MANY == WITH_TOO_MANY - 1 => Size::TooMany,
        _ if nth % WITH_SOME == WITH_SOME - 1 => Size::Some,
        _ => Size::Few,
    }
}

/// Runs with this seed; every reason and refusal comes up in them.
fn runs(service: &impl Service, seed: u64) {
    let mut random = Random::new(seed);
    let (mut tally, mut compared) = (Tally::default(), 0);
    for nth in 0..RUNS {
        let mut run = run(&mut random, service, size(nth));
        compared += compare_with_fresh(&mut random, &mut run);
        tally.add(&run.desk.tally);
    }
    println!("{compared} lists compared with fresh tables; {tally:?}");
    // Each was the book's: no table from laying out and batches is refused with 65, nor with 69.
    assert!(tally.by_reason.keys().eq(&[0, 64, 66, 67, 68]));
    for (reason, times) in &tally.by_reason {
        assert!(*times >= RUNS / 5, "reason {reason}");
    }
    let refusals = REFUSALS.map(|number| tally.by_refusal[usize::from(number)]);
    assert!(
        refusals.iter().all(|times| *times >= RUNS / 50),
        "{refusals:?}"
    );
    assert!(tally.accepted >= 10 * RUNS && tally.lists >= 5 * RUNS);
    for mark in [ADD_READINGS, MOVE_READINGS] {
        assert!(tally.by_command[&mark] >= 2 * RUNS, "{mark:02X}");
    }
    assert!(compared >= 6 * RUNS && tally.sided >= RUNS / 10);
    let tours = &tally.tours;
    assert!(tours.legs >= 3 * RUNS && tours.most_legs >= 8);
    assert!(tours.left_out >= 2 * RUNS && tours.nothing >= RUNS);
    assert!(tours.across_calls >= RUNS / 5 && tours.changed_at_corner >= RUNS / 20);
}

fn runs_answer_as_the_book_and_as_fresh_tables(service: &impl Service) {
    runs(service, 51);
}

fn more_runs_answer_as_the_book_and_as_fresh_tables(service: &impl Service) {
    runs(service, 52);
}

/// Any other length of the table gives 64 and leaves all, whatever else is wrong.
fn a_table_of_wrong_length_gives_64(service: &impl Service) {
    let mut random = Random::new(53);
    let lengths = [
        0,
        1,
        2,
        63,
        WORK_LEN,
        TABLE_LEN - 1,
        TABLE_LEN + 1,
        2 * TABLE_LEN,
    ];
    for table_len in lengths {
        for work_len in WRONG_WORK.into_iter().chain([WORK_LEN]) {
            let pool = Pool::new(&mut random, 9);
            let commands = pool.commands(&mut random, 6);
            let commands = broken_off(&mut random, commands);
            let mut table = vec![0x5A; table_len];
            let mut lent = Lent::new(table_len, work_len, commands.len());
            let answer = lent.batch(service, &mut table, &commands);
            assert_eq!(answer, (64, 0, 0), "table {table_len}, work {work_len}");
            lent.assert_after(&answer, &[]);
            assert!(table.iter().all(|byte| *byte == 0x5A));
        }
        let mut table = vec![0x5A; table_len];
        assert_eq!(service.lay_out(&mut table), 64);
        assert!(table.iter().all(|byte| *byte == 0x5A));
    }
}

/// Refused changes, lists and prints on tables of all sizes: the tree is not even reshaped.
fn a_call_that_accepts_nothing_leaves_every_byte(service: &impl Service) {
    let mut random = Random::new(54);
    let on_grid = Leg::new((-HALF_WIDTH, 7), (HALF_WIDTH, -300));
    let off_grid = Leg::new((0, 0), (0, HALF_WIDTH + 1));
    for count in [1, 2, 7, 8, 9, 24, 100, 511, 512] {
        let pool = Pool::new(&mut random, count);
        let mut desk = Desk::lay_out(service);
        desk.records(&pool.additions(&mut random));
        desk.records(&[stand(pool.leg(&mut random))]);
        let held = *desk.book.lines.keys().next().unwrap();
        let idle = [
            add(Site::new(held, 1, 1)),
            add(Site::new(0, 1, 1)),
            remove(0),
            move_site(Site::new(held, HALF_WIDTH + 1, 0)),
            list(off_grid),
            list(on_grid),
            stand(off_grid),
            begin(off_grid.e),
            corner(on_grid.s),
            add_readings(held, metres(100, 100)),
            add_readings(0, metres(100, 100)),
            add_readings(65_535, Readings::new(INFINITY, ZERO)),
            move_readings(held, Readings::new(ZERO, INFINITY)),
            move_readings(held, Readings::new(FIRST_OFF_GRID, ZERO)),
        ];
        let mut book: Book = desk.book.clone();
        let before = desk.table.clone();
        for command in &idle {
            desk.serve(command);
        }
        // Accepted if there were room.
        desk.call(&remove(held), WORK_LEN, 0);
        desk.call(&stand(on_grid), WORK_LEN, 0);
        desk.call(&begin(on_grid.s), WORK_LEN, 0);
        desk.call(&move_readings(held, metres(0, 0)), WORK_LEN, 0);
        desk.serve(&idle.concat());
        assert!(desk.table == before);
        assert_eq!(desk.book, book);
        book.serve(&remove(held));
        desk.serve(&remove(held));
        assert_eq!(desk.book, book);
    }
}

/// The table after a run is, byte for byte, the one after its accepted changes and its tours' legs
/// alone, each in a call of its own.
fn what_is_not_accepted_leaves_no_trace_among_changes(service: &impl Service) {
    let mut random = Random::new(55);
    let mut dropped = 0;
    for nth in 0..RUNS / 10 {
        let numbers = if nth % 20 == 0 { 600 } else { 30 };
        let pool = Pool::new(&mut random, numbers);
        let mut mixed = Desk::lay_out(service);
        let mut plain = Desk::lay_out(service);
        let additions = pool.additions(&mut random);
        mixed.records(&additions);
        plain.records(&additions);
        let commands = pool.commands(&mut random, 60);
        for (command, record) in commands.iter().zip(mixed.records(&commands)) {
            if record == Accepted || command[0] == CORNER && matches!(record, List(_)) {
                plain.records(std::slice::from_ref(command));
            } else {
                dropped += 1;
            }
        }
        assert!(mixed.table == plain.table);
    }
    println!("commands without an accepted change: {dropped}");
    assert!(dropped >= RUNS);
}
