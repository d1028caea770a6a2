//! Tours of several legs (document 02, C-13): tours to try in calls of every length, room, tables in
//! which a tour is under way, and the promise as a listener hears it.

use reference::book::{ALL_USED, Book, CUT_COMMAND, NO_ROOM, Tour, UNKNOWN_COMMAND, WRONG_LENGTH};
use reference::command::{
    BEGIN, CORNER, add, add_readings, begin, corner, list, move_readings, move_site, print, remove,
    stand,
};
use reference::grid::{HALF_WIDTH, Leg, MOST_SITES, Site, WORK_LEN, spread};
use reference::layout::MIRRORED;
use reference::listener::Told;
use reference::random::Random;
use reference::reading::Readings;
use reference::readings::{FIRST_OFF_GRID, INFINITY, ZERO, metres};
use reference::record::Record;
use reference::tours::{self, at, listed};
use service::bytes::{self, TOUR, tour};
use service::desk::{Desk, LONGEST_RECORD, Tally};
use service::draw::Pool;
use service::hearing::hear_alone;
use service::shape::{self, Dealing};
use service::{Service, on_each_service};
use std::path::Path;

const RUNS: usize = 150;

on_each_service!(
    tours_to_try,
    tours_to_try_cut_anywhere,
    nothing_between_calls_ends_a_tour,
    the_words_of_a_tour,
    every_record_needs_just_its_own_length,
    every_report_length_up_to_all_records,
    the_longest_legs,
    tables_of_earlier_releases_have_no_tour,
    a_tour_of_release_0_10_0_goes_on,
    a_number_is_compared_and_not_a_position,
    tours_that_others_began,
    a_tour_that_ended_leaves_no_trace,
    runs_full_of_tours,
    the_promise_by_the_service_alone,
);

fn tours_to_try(service: &impl Service) {
    for tried in tours::all() {
        let (commands, records): (Vec<_>, Vec<_>) = tried.steps.into_iter().unzip();
        let answers = Desk::lay_out(service).records(&commands);
        assert_eq!(answers, records, "{}", tried.what);
        let mut desk = Desk::lay_out(service);
        for (command, record) in commands.iter().zip(records) {
            let answers = desk.records(std::slice::from_ref(command));
            assert_eq!(answers, [record], "{}", tried.what);
        }
    }
}

/// In two calls, and in three: the table is the same in the end.
fn tours_to_try_cut_anywhere(service: &impl Service) {
    let mut random = Random::new(421);
    for tried in tours::all() {
        let (commands, records): (Vec<_>, Vec<_>) = tried.steps.into_iter().unzip();
        let mut whole = Desk::lay_out(service);
        whole.records(&commands);
        for cut in 0..=commands.len() {
            let again = cut + random.index(commands.len() - cut + 1);
            let calls = [&commands[..cut], &commands[cut..again], &commands[again..]];
            let mut desk = Desk::lay_out(service);
            let answers: Vec<Record> = calls.iter().flat_map(|c| desk.records(c)).collect();
            assert_eq!(answers, records, "{} cut at {cut}", tried.what);
            assert!(desk.table == whole.table);
        }
    }
}

/// Between any two commands: calls that end early, or whose commands are all refused or only ask.
fn nothing_between_calls_ends_a_tour(service: &impl Service) {
    let idle = [
        begin(at(HALF_WIDTH + 1, 0)),
        add(Site::new(0, 0, 0)),
        remove(0),
        move_site(Site::new(7, 0, -HALF_WIDTH - 1)),
        list(Leg::new((3, 3), (0, HALF_WIDTH + 1))),
        list(Leg::new((-9, 4), (12, 1))),
        print(),
        add_readings(0, metres(0, 0)),
        add_readings(7, Readings::new(INFINITY, ZERO)),
        move_readings(1, Readings::new(ZERO, FIRST_OFF_GRID)),
    ];
    for tried in tours::all() {
        let mut desk = Desk::lay_out(service);
        for (command, record) in tried.steps {
            let before = desk.table.clone();
            let ends = |desk: &mut Desk<_>, commands: &[u8], work_len: usize, room: usize| {
                desk.call(commands, work_len, room).reason
            };
            assert_eq!(ends(&mut desk, &command, WORK_LEN, 0), NO_ROOM);
            let short = record.bytes().len() - 1;
            assert_eq!(ends(&mut desk, &command, WORK_LEN, short), NO_ROOM);
            let room = LONGEST_RECORD;
            assert_eq!(ends(&mut desk, &command, WORK_LEN + 1, room), WRONG_LENGTH);
            assert_eq!(ends(&mut desk, &[0x45], WORK_LEN, room), UNKNOWN_COMMAND);
            let cut = &corner(at(1, 1))[..4];
            assert_eq!(ends(&mut desk, cut, WORK_LEN, room), CUT_COMMAND);
            assert_eq!(
                ends(&mut desk, &begin(at(1, 1))[..1], WORK_LEN, room),
                CUT_COMMAND
            );
            let cut = &add_readings(9, metres(0, 0))[..10];
            assert_eq!(ends(&mut desk, cut, WORK_LEN, room), CUT_COMMAND);
            desk.serve(&idle.concat());
            assert!(desk.table == before, "{}", tried.what);
            assert_eq!(desk.records(&[command]), [record], "{}", tried.what);
        }
    }
}

/// Byte for byte as docs/LAYOUT.md has them.
fn the_words_of_a_tour(service: &impl Service) {
    let mut desk = Desk::lay_out(service);
    let mut after = |command: Vec<u8>| {
        desk.records(&[command]);
        <[u8; 8]>::try_from(&desk.table[16..24]).unwrap()
    };
    assert_eq!(after(add(Site::new(513, 2, 3))), [0; 8]);
    assert_eq!(after(corner(at(0, 0))), [0; 8]);
    assert_eq!(after(begin(at(0, 0))), [1, 0, 0xE0, 0x2E, 0xE0, 0x2E, 0, 0]);
    assert_eq!(
        after(corner(at(10, -10))),
        [1, 0, 0xEA, 0x2E, 0xD6, 0x2E, 1, 2]
    );
    assert_eq!(
        after(begin(at(-12_000, 12_000))),
        [1, 0, 0, 0, 0xC0, 0x5D, 0, 0]
    );
    assert_eq!(
        after(corner(at(12_000, -12_000))),
        [1, 0, 0xC0, 0x5D, 0, 0, 1, 2]
    );
    assert_eq!(after(corner(at(12_001, 0))), [1, 0, 0xC0, 0x5D, 0, 0, 1, 2]);
    assert_eq!(after(move_site(Site::new(513, 2, 3))), [0; 8]);
    assert_eq!(after(begin(at(-12_000, -12_000))), [1, 0, 0, 0, 0, 0, 0, 0]);
    assert_eq!(after(remove(513)), [0; 8]);
    assert_eq!(after(begin(at(1, 0))), [1, 0, 0xE1, 0x2E, 0xE0, 0x2E, 0, 0]);
    assert_eq!(
        after(corner(at(5, 5))),
        [1, 0, 0xE1, 0x2E, 0xE0, 0x2E, 0, 0]
    );
    assert_eq!(after(add(Site::new(1, 2, 3))), [0; 8]);
}

/// Sites 1 and 2 of document 01's first leg, and a tour that came from (0,0) to (10,0).
fn after_one_leg(service: &impl Service) -> Desk<'_, impl Service> {
    let mut desk = Desk::lay_out(service);
    let commands = [
        add(Site::new(1, 2, 3)),
        add(Site::new(2, 7, 1)),
        begin(at(0, 0)),
        corner(at(10, 0)),
    ];
    let answers = desk.records(&commands);
    assert_eq!(answers[3], listed(&[(1, 0, 1), (2, 37, 100)]));
    desk
}

/// Exact room, one byte less, and none; then the same command again in the next call, with room.
fn every_record_needs_just_its_own_length(service: &impl Service) {
    let commands = [
        // One entry is left out, and its bytes are not asked for.
        (corner(at(0, 0)), listed(&[(1, 63, 100)]).bytes()),
        (corner(at(10, 0)), listed(&[]).bytes()),
        (corner(at(0, HALF_WIDTH + 1)), vec![0x21, 2]),
        (begin(at(0, HALF_WIDTH + 1)), vec![0x21, 2]),
        (begin(at(10, 0)), vec![0x2B]),
    ];
    for (command, record) in commands {
        for room in 0..record.len() {
            let mut desk = after_one_leg(service);
            let before = desk.table.clone();
            let reply = desk.call(&command, WORK_LEN, room);
            assert_eq!((reply.reason, reply.used, reply.written), (NO_ROOM, 0, 0));
            assert!(desk.table == before, "68 leaves corner and tour");
            let reply = desk.call(&command, WORK_LEN, record.len());
            assert_eq!((reply.reason, &reply.report), (ALL_USED, &record));
        }
    }
    let mut desk = Desk::lay_out(service);
    assert_eq!(desk.call(&corner(at(0, 0)), WORK_LEN, 1).reason, NO_ROOM);
    let reply = desk.call(&corner(at(0, 0)), WORK_LEN, 2);
    assert_eq!((reply.reason, reply.report), (ALL_USED, vec![0x21, 8]));
}

/// A call stops before the first leg whose record does not fit; sent again, the rest goes on as if
/// nothing had been.
fn every_report_length_up_to_all_records(service: &impl Service) {
    let mut random = Random::new(422);
    let mut stopped = 0;
    for layout in MIRRORED {
        let pool = Pool::of(&mut random, layout, 9);
        let additions = pool.additions(&mut random);
        let mut tour = vec![begin(pool.leg(&mut random).s)];
        tour.extend((0..12).map(|_| corner(pool.leg(&mut random).e)));
        let commands = tour.concat();
        let mut whole = Desk::lay_out(service);
        whole.records(&additions);
        let in_one_call = whole.serve(&commands);
        for room in 0..=in_one_call.written {
            let mut desk = Desk::lay_out(service);
            desk.records(&additions);
            let first = desk.call(&commands, WORK_LEN, room);
            stopped += usize::from(first.reason == NO_ROOM && first.used > 5);
            let second = desk.serve(&commands[first.used..]);
            assert_eq!([first.report, second.report].concat(), in_one_call.report);
            assert!(desk.table == whole.table);
        }
    }
    println!("stopped at a leg: {stopped}");
    assert!(stopped >= 100);
}

/// 512 entries there, 511 on each way back; exact room and one byte less.
fn the_longest_legs(service: &impl Service) {
    let nth = |k: u16| add(Site::new(k, spread(k.into()), 0));
    let mut desk = Desk::lay_out(service);
    desk.records(&(1..=512).map(nth).collect::<Vec<_>>());
    let (west, east) = (at(-HALF_WIDTH, 0), at(HALF_WIDTH, 0));
    desk.records(&[begin(west)]);
    let legs = [
        (east, LONGEST_RECORD),
        (west, LONGEST_RECORD - 10),
        (east, LONGEST_RECORD - 10),
        (east, 3),
    ];
    for (end, length) in legs {
        let command = corner(end);
        assert_eq!(desk.call(&command, WORK_LEN, length - 1).reason, NO_ROOM);
        assert_eq!(desk.call(&command, WORK_LEN, length).written, length);
    }
    // A full table refuses one more site, and the tour goes on.
    assert_eq!(desk.book.lines.len(), MOST_SITES);
    let answers = desk.records(&[add(Site::new(600, 0, 0)), corner(east)]);
    assert_eq!(answers, [Record::Refused(5), listed(&[])]);
}

/// A table that a release left.
fn kept(name: &str) -> Vec<u8> {
    let tables = Path::new(env!("CARGO_MANIFEST_DIR")).join("../tables");
    std::fs::read(tables.join(format!("{name}.stops"))).expect("it is kept")
}

/// The bytes of a tour were kept for later, and 0.
fn tables_of_earlier_releases_have_no_tour(service: &impl Service) {
    for name in ["release-0.8.0-unchanged", "release-0.9.0"] {
        let table = kept(name);
        assert!(table[16..64].iter().all(|byte| *byte == 0));
        let mut desk = Desk::take_up(service, table);
        assert_eq!(desk.book.tour, None);
        assert_eq!(desk.records(&[corner(at(0, 0))]), [Record::Refused(8)]);
        let leg = desk.book.leg.expect("a leg stands");
        let answers = desk.records(&[print(), begin(leg.s), corner(leg.e)]);
        assert_eq!(answers[2], answers[0], "the leg's whole list");
    }
}

fn a_tour_of_release_0_10_0_goes_on(service: &impl Service) {
    let mut desk = Desk::take_up(service, kept("release-0.10.0-touring"));
    let (last, next) = (at(3_400, 2_300), at(8_600, 6_200));
    let tour = Tour {
        corner: last,
        remembered: Some(283),
    };
    assert_eq!(desk.book.tour, Some(tour));
    let leg = Leg { s: last, e: next };
    let answers = desk.records(&[list(leg), corner(next), corner(next)]);
    let [Record::List(whole), Record::List(rest), Record::List(none)] = &answers[..] else {
        panic!("{answers:?}");
    };
    assert_eq!((whole[0].site, &whole[1..]), (283, &rest[..]));
    assert!(!rest.is_empty() && none.is_empty());
}

/// In no run is a site remembered that has a lower number at its position, but a table from
/// elsewhere may have it. The first entry, there with another number, stays.
fn a_number_is_compared_and_not_a_position(service: &impl Service) {
    let sites = [Site::new(3, 4, 0), Site::new(8, 4, 0), Site::new(9, 30, 0)];
    for (remembered, entries) in [
        (None, &[(3, 0, 1), (9, 17, 25)][..]),
        (Some(8), &[(3, 0, 1), (9, 17, 25)]),
        (Some(9), &[(3, 0, 1), (9, 17, 25)]),
        (Some(3), &[(9, 17, 25)]),
    ] {
        let corner_at = at(0, 0);
        let tour = Some(Tour {
            corner: corner_at,
            remembered,
        });
        let book = Book {
            tour,
            ..Book::of(&sites, None)
        };
        let mut desk = Desk::take_up(service, shape::table(&book, &mut Dealing::Even));
        let answers = desk.records(&[corner(at(25, 0)), corner(at(25, 0))]);
        assert_eq!(answers, [listed(entries), listed(&[])], "{remembered:?}");
    }
}

/// A book with these many sites of the pool and a tour at any corner that remembers any of them.
fn book_in_a_tour(random: &mut Random, pool: &Pool, count: usize) -> Book {
    let mut book = Book::new();
    let mut additions = pool.additions(random);
    additions.truncate(count);
    book.records(&additions);
    if random.once_in(2) {
        book.records(&[stand(pool.leg(random))]);
    }
    let held: Vec<u16> = book.lines.keys().copied().collect();
    let some = !held.is_empty() && !random.once_in(4);
    book.tour = Some(Tour {
        corner: pool.leg(random).s,
        remembered: some.then(|| random.pick(&held)),
    });
    book
}

fn tours_that_others_began(service: &impl Service) {
    let mut random = Random::new(423);
    let mut tally = Tally::default();
    for nth in 0..RUNS {
        let count = match nth % 5 {
            0 => 0,
            1 => 1 + random.index(300),
            _ => 1 + random.index(20),
        };
        let pool = Pool::new(&mut random, count.max(1));
        let book = book_in_a_tour(&mut random, &pool, count);
        let table = shape::table(&book, &mut Dealing::Any(&mut random));
        for _ in 0..5 {
            let mut desk = Desk::take_up(service, table.clone());
            assert_eq!(tour(&desk.table), book.tour);
            desk.serve(&corner(pool.leg(&mut random).e));
            desk.serve(&pool.tour(&mut random).concat());
            tally.add(&desk.tally);
        }
    }
    println!("{tally:?}");
    let tours = &tally.tours;
    assert!(tours.legs >= 10 * RUNS && tours.left_out >= 5 * RUNS);
    assert!(tours.changed_at_corner >= RUNS && tally.by_refusal[6] >= RUNS);
}

/// Without its 42 and 43 a run leaves the same table but for the tour's words, and the very same
/// where no tour is under way.
fn a_tour_that_ended_leaves_no_trace(service: &impl Service) {
    let mut random = Random::new(424);
    let (mut under_way, mut ended) = (0, 0);
    for _ in 0..RUNS {
        let pool = Pool::new(&mut random, 20);
        let mut with = Desk::lay_out(service);
        let mut without = Desk::lay_out(service);
        let commands = pool.commands(&mut random, 40);
        let of_a_tour = |command: &Vec<u8>| [BEGIN, CORNER].contains(&command[0]);
        for command in commands {
            with.serve(&command);
            if !of_a_tour(&command) {
                without.serve(&command);
            }
        }
        assert_eq!(tour(&without.table), None);
        if with.book.tour.is_some() {
            under_way += 1;
            with.table[TOUR].fill(0);
        } else {
            ended += with.tally.tours.begun.min(1);
        }
        assert!(with.table == without.table);
    }
    println!("under way {under_way}, ended {ended}");
    assert!(under_way >= RUNS / 5 && ended >= RUNS / 5);
}

/// Sites that tie, and tours along and across them in calls of any length, with few changes.
fn runs_full_of_tours(service: &impl Service) {
    let mut random = Random::new(425);
    let mut tally = Tally::default();
    for nth in 0..RUNS {
        let count = 2 + random.index(if nth % 10 == 0 { 300 } else { 20 });
        let pool = Pool::of(&mut random, MIRRORED[nth % 3], count);
        let mut desk = Desk::lay_out(service);
        desk.records(&pool.additions(&mut random));
        for _ in 0..12 {
            let mut commands = pool.tour(&mut random).concat();
            if random.once_in(6) {
                commands.extend(pool.commands(&mut random, 3).concat());
            }
            let room = random.index(2_000);
            let reply = desk.call(&commands, WORK_LEN, room);
            desk.serve(&commands[reply.used..]);
        }
        tally.add(&desk.tally);
    }
    println!("{tally:?}");
    let tours = &tally.tours;
    assert!(tours.legs >= 50 * RUNS && tours.most_legs >= 30);
    assert!(tours.left_out >= 20 * RUNS && tours.changed_at_corner >= 2 * RUNS);
    assert!(tours.nothing >= 5 * RUNS && tours.nothing_again >= RUNS);
    assert!(tours.across_calls >= 2 * RUNS && tally.by_reason[&NO_ROOM] >= RUNS / 5);
}

fn the_promise_by_the_service_alone(service: &impl Service) {
    let mut random = Random::new(426);
    let mut told = Told::default();
    for nth in 0..RUNS {
        let count = 2 + random.index(if nth % 10 == 0 { 200 } else { 20 });
        let pool = match nth % 4 {
            3 => Pool::new(&mut random, count),
            k => Pool::of(&mut random, MIRRORED[k], count),
        };
        told.add(&hear_alone(service, &mut random, &pool, 15));
    }
    println!("{told:?}");
    assert!(told.legs >= 10 * RUNS && told.left_out >= 5 * RUNS && told.most_legs >= 10);
    assert!(told.nothing >= 2 * RUNS && told.nothing_again >= RUNS);
    assert!(told.changed_at_corner >= RUNS / 2 && told.across_calls >= RUNS);
}

/// The checker's reading of a tour is the one that the book has.
#[test]
fn a_book_in_a_tour_comes_back_from_its_table() {
    let mut random = Random::new(427);
    for count in [0, 1, 2, 9, 40, 200].repeat(10) {
        let pool = Pool::new(&mut random, count.max(1));
        let book = book_in_a_tour(&mut random, &pool, count);
        let table = shape::table(&book, &mut Dealing::Any(&mut random));
        assert_eq!(bytes::book(&table), book);
    }
}
