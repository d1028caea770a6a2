//! Positions from the receiver (document 02, C-15): readings to try, all tests in order, the patterns
//! near each half and at the grid's edge, and the same run with the steps written out.

use reference::book::{ALL_USED, CUT_COMMAND, NO_ROOM, UNKNOWN_COMMAND};
use reference::command::{
    ADD_READINGS, MARKS, MOVE_READINGS, add, add_readings, begin, corner, list, move_readings,
    move_site, print, remove, stand,
};
use reference::grid::{HALF_WIDTH, Leg, MOST_SITES, Position, Site, WORK_LEN, WRONG_WORK, spread};
use reference::random::{Random, readings_of};
use reference::reading::{Reading, Readings, STEP_OFF_GRID};
use reference::readings::{
    self, FIRST_OFF_GRID, INFINITY, LARGEST, LAST_ON_GRID, NEGATIVE_INFINITY, NEGATIVE_ZERO,
    NO_NUMBER, ODD, ZERO, metres,
};
use reference::record::Record;
use reference::tours::at;
use service::bytes::{RECORD_LEN, SITE_ARRAY, TOUR, empty_table, record_at, sites, steps, word};
use service::desk::{Desk, LONGEST_RECORD, Lent};
use service::draw::{Pool, broken_off};
use service::shape::{self, Dealing};
use service::written_out::{Compared, Pair};
use service::{Answer, Service, on_each_service};
use std::collections::{BTreeMap, BTreeSet};

const RUNS: usize = 1_000;
/// Patterns on each side of a half and of a step.
const BESIDE: i64 = 4;

on_each_service!(
    readings_to_try,
    readings_to_try_cut_anywhere,
    every_record_needs_just_its_own_length,
    all_tests_of_an_addition_in_order,
    all_tests_of_a_move_in_order,
    the_bytes_of_a_site,
    cut_and_unknown_commands,
    every_pair_of_odd_readings,
    some_halves_and_steps_and_the_edge,
    a_tour_ends_where_readings_are_accepted,
    the_same_run_with_the_steps_written_out,
    the_same_run_on_full_tables,
    every_report_length,
    readings_that_are_not_finite_among_others,
);

fn readings_to_try(service: &impl Service) {
    for tried in readings::all() {
        let (commands, records): (Vec<_>, Vec<_>) = tried.steps.into_iter().unzip();
        let mut whole = Desk::lay_out(service);
        assert_eq!(whole.records(&commands), records, "{}", tried.what);
        let mut desk = Desk::lay_out(service);
        for (command, record) in commands.iter().zip(records) {
            let answers = desk.records(std::slice::from_ref(command));
            assert_eq!(answers, [record], "{}", tried.what);
        }
        assert!(desk.table == whole.table, "{}", tried.what);
    }
}

/// In two calls: the table is the same in the end.
fn readings_to_try_cut_anywhere(service: &impl Service) {
    for tried in readings::all() {
        let (commands, records): (Vec<_>, Vec<_>) = tried.steps.into_iter().unzip();
        let mut whole = Desk::lay_out(service);
        whole.records(&commands);
        for cut in 0..=commands.len() {
            let mut desk = Desk::lay_out(service);
            let (first, second) = commands.split_at(cut);
            let answers = [desk.records(first), desk.records(second)].concat();
            assert_eq!(answers, records, "{} cut at {cut}", tried.what);
            assert!(desk.table == whole.table);
        }
    }
}

/// 68 leaves the table, and the same command again has the same record.
fn every_record_needs_just_its_own_length(service: &impl Service) {
    for tried in readings::all() {
        let mut desk = Desk::lay_out(service);
        for (command, record) in tried.steps {
            let record = record.bytes();
            let before = desk.table.clone();
            for room in [0, record.len() - 1] {
                let reply = desk.call(&command, WORK_LEN, room);
                assert_eq!((reply.reason, reply.used, reply.written), (NO_ROOM, 0, 0));
                assert!(desk.table == before, "68 leaves the table");
            }
            let reply = desk.call(&command, WORK_LEN, record.len());
            assert_eq!((reply.reason, reply.report), (ALL_USED, record));
        }
    }
}

/// One call with room for every record, and what it wrote. No book has a say in it.
fn call(service: &impl Service, table: &mut [u8], commands: &[u8]) -> (Answer, Vec<u8>) {
    let mut lent = Lent::new(commands.len(), WORK_LEN, 2 * LONGEST_RECORD);
    let answer = lent.batch(service, table, commands);
    let report = lent.written(answer.2).to_vec();
    lent.assert_after(&answer, &report);
    (answer, report)
}

/// A sound table with these sites, a standing leg, and a tour after its first leg.
fn touring(service: &impl Service, sites: &[Site]) -> Vec<u8> {
    let mut table = empty_table();
    let mut commands: Vec<u8> = sites.iter().copied().flat_map(add).collect();
    commands.extend(stand(Leg::new((0, 0), (10, 0))));
    commands.extend([begin(at(0, 0)), corner(at(10, 0))].concat());
    let ((reason, used, _), _) = call(service, &mut table, &commands);
    assert_eq!((reason, used), (ALL_USED.into(), commands.len()));
    assert_ne!(word(&table, TOUR.start), 0, "a tour is under way");
    table
}

const HELD: u16 = 7;
const NOT_HELD: u16 = 600;

/// No site, one, and as many as can be. A tour is under way in each.
fn tables(service: &impl Service) -> [Vec<u8>; 3] {
    let all: Vec<Site> = (1..=512)
        .map(|n| Site::new(n, spread(n.into()), 3))
        .collect();
    [
        touring(service, &[]),
        touring(service, &[Site::new(HELD, 2, 3)]),
        touring(service, &all),
    ]
}

const ON_GRID: [Reading; 5] = [
    ZERO,
    NEGATIVE_ZERO,
    LAST_ON_GRID,
    Reading(0xC992_7D8F),
    Reading(0xC248_0000),
];
const OFF_GRID: [Reading; 5] = [
    FIRST_OFF_GRID,
    Reading(0xC992_7D90),
    Reading(0x4AC8_0000),
    Reading(0xD2C8_0000),
    LARGEST,
];
const NOT_FINITE: [Reading; 5] = [
    INFINITY,
    NEGATIVE_INFINITY,
    NO_NUMBER[0],
    NO_NUMBER[3],
    NO_NUMBER[7],
];

/// The causes that one command meets, whatever their order.
struct Case {
    number: u16,
    readings: Readings,
    held: bool,
    full: bool,
}

impl Case {
    fn meets(&self, cause: u8) -> bool {
        let Readings { east, north } = self.readings;
        let either = |of: &[Reading]| of.contains(&east) || of.contains(&north);
        match cause {
            1 => self.number == 0,
            2 => either(&OFF_GRID),
            3 => self.held,
            4 => !self.held,
            5 => self.full,
            11 => either(&NOT_FINITE),
            _ => unreachable!("no cause of 61 and 6D"),
        }
    }
}

type Pairs = BTreeSet<(u8, u8)>;

/// Every combination of numbers, of readings on both axes, and of tables: the first cause in this order
/// is given, and the table is left. Which pairs of causes were met together, and how many were accepted.
fn in_order(
    service: &impl Service,
    command: fn(u16, Readings) -> Vec<u8>,
    order: &[u8],
) -> (Pairs, usize) {
    let (mut pairs, mut accepted) = (BTreeSet::new(), 0);
    let axis = [ON_GRID, OFF_GRID, NOT_FINITE].concat();
    for table in tables(service) {
        let numbers: Vec<u16> = sites(&table).iter().map(|site| site.number).collect();
        for number in [0, HELD, NOT_HELD] {
            for (east, north) in axis.iter().flat_map(|e| axis.iter().map(move |n| (*e, *n))) {
                let case = Case {
                    number,
                    readings: Readings::new(east, north),
                    held: numbers.contains(&number),
                    full: numbers.len() == MOST_SITES,
                };
                let met: Vec<u8> = order.iter().copied().filter(|c| case.meets(*c)).collect();
                let mut after = table.clone();
                let bytes = command(number, case.readings);
                let (answer, report) = call(service, &mut after, &bytes);
                let record = match met.first() {
                    Some(first) => Record::Refused(*first),
                    None => Record::Accepted,
                };
                assert_eq!(report, record.bytes(), "{number} {east:?} {north:?}");
                assert_eq!((answer.0, answer.1), (ALL_USED.into(), 11));
                assert_eq!(
                    after == table,
                    !met.is_empty(),
                    "a refusal leaves the table"
                );
                accepted += usize::from(met.is_empty());
                for (i, first) in met.iter().enumerate() {
                    pairs.extend(met[i + 1..].iter().map(|later| (*first, *later)));
                }
            }
        }
    }
    (pairs, accepted)
}

/// Number 0 is never held, so that 1 and 3 are not met together.
fn all_tests_of_an_addition_in_order(service: &impl Service) {
    let (pairs, accepted) = in_order(service, add_readings, &[1, 11, 2, 3, 5]);
    let expected = [
        (1, 2),
        (1, 5),
        (1, 11),
        (2, 3),
        (2, 5),
        (3, 5),
        (11, 2),
        (11, 3),
        (11, 5),
    ];
    assert!(pairs.into_iter().eq(expected));
    // Two numbers in the empty table, one beside the one site.
    assert_eq!(accepted, 3 * 25);
}

fn all_tests_of_a_move_in_order(service: &impl Service) {
    let (pairs, accepted) = in_order(service, move_readings, &[1, 11, 2, 4]);
    let expected = [(1, 2), (1, 4), (1, 11), (2, 4), (11, 2), (11, 4)];
    assert!(pairs.into_iter().eq(expected));
    assert_eq!(accepted, 2 * 25);
}

/// As docs/LAYOUT.md has the records of the site array.
fn the_bytes_of_a_site(service: &impl Service) {
    let mut table = empty_table();
    let mut after = |command: Vec<u8>| {
        call(service, &mut table, &command);
        <[u8; 16]>::try_from(&table[SITE_ARRAY..SITE_ARRAY + 2 * RECORD_LEN]).unwrap()
    };
    let free = [0; 8];
    // (1,234.5 m, -99.9 m): 12 and -1, counted from the south-west corner 12,012 and 11,999.
    let shown = Readings::new(Reading(0x449A_5000), Reading(0xC2C7_CCCD));
    let first = [0x02, 0x01, 0xEC, 0x2E, 0xDF, 0x2E, 0, 0];
    assert_eq!(after(add_readings(0x0102, shown))[..8], first);
    assert_eq!(after(add_readings(0x0102, metres(0, 0)))[..8], first);
    let corner = Readings::new(LAST_ON_GRID.opposite(), LAST_ON_GRID);
    let second = [0x03, 0x01, 0, 0, 0xC0, 0x5D, 0, 0];
    assert_eq!(
        after(add_readings(0x0103, corner)),
        *[first, second].as_flattened()
    );
    let origin = [0x02, 0x01, 0xE0, 0x2E, 0xE0, 0x2E, 0, 0];
    let zeros = Readings::new(NEGATIVE_ZERO, Reading(0x8000_0001));
    assert_eq!(
        after(move_readings(0x0102, zeros)),
        *[origin, second].as_flattened()
    );
    for refused in [
        Readings::new(FIRST_OFF_GRID, ZERO),
        Readings::new(ZERO, INFINITY),
    ] {
        assert_eq!(
            after(move_readings(0x0102, refused)),
            *[origin, second].as_flattened()
        );
    }
    assert_eq!(after(remove(0x0102))[..8], second);
    let west = Readings::new(Reading::of_metres(-150), Reading::of_metres(-149));
    let moved = [0x03, 0x01, 0xDE, 0x2E, 0xDF, 0x2E, 0, 0];
    assert_eq!(after(move_readings(0x0103, west))[..8], moved);
    assert_ne!(moved, free);
}

/// Alone and behind other commands; where they are whole, 61 and 6D have 11 bytes.
fn cut_and_unknown_commands(service: &impl Service) {
    let table = touring(service, &[Site::new(HELD, 2, 3)]);
    let given = |commands: &[u8]| {
        let mut after = table.clone();
        let (answer, report) = call(service, &mut after, commands);
        (answer, report, after == table)
    };
    let before = [list(Leg::new((0, 0), (0, 0))), remove(9)].concat();
    let (_, reported, _) = given(&before);
    for command in [
        add_readings(9, metres(50, 50)),
        move_readings(HELD, metres(50, 50)),
    ] {
        for length in 1..11 {
            let cut = &command[..length];
            let expected = ((CUT_COMMAND.into(), 0, 0), vec![], true);
            assert_eq!(given(cut), expected);
            let behind = [&before[..], cut].concat();
            let answer = (CUT_COMMAND.into(), before.len(), reported.len());
            assert_eq!(given(&behind), (answer, reported.clone(), true));
        }
        let (answer, report, left) = given(&command);
        assert_eq!((answer, &report[..]), ((0, 11, 1), &[0x2B][..]));
        assert!(!left);
        let (answer, report, _) = given(&[&command[..], &[0x50][..]].concat());
        assert_eq!((answer.0, answer.1, report[0]), (0, 12, 0x2B));
        // The marks beside these are none.
        for mark in [0x60, 0x62, 0x6C, 0x6E, 0x21, 0xC1, 0xE1] {
            assert!(!MARKS.contains(&mark));
            let mut other = command.clone();
            other[0] = mark;
            let answer = (u32::from(UNKNOWN_COMMAND), 0, 0);
            assert_eq!(given(&other), (answer, vec![], true));
        }
    }
}

fn every_pair_of_odd_readings(service: &impl Service) {
    let mut desk = Desk::lay_out(service);
    desk.records(&[add(Site::new(1, 5, 5)), stand(Leg::new((0, 0), (10, 0)))]);
    let mut refused = BTreeMap::new();
    for (east, north) in ODD.iter().flat_map(|e| ODD.map(|n| (*e, n))) {
        let readings = Readings::new(east, north);
        for record in desk.records(&[
            add_readings(2, readings),
            move_readings(1, readings),
            remove(2),
        ]) {
            if let Record::Refused(number) = record {
                *refused.entry(number).or_insert(0) += 1;
            }
        }
    }
    // 22 odd readings are finite, and 10 of them on the grid.
    let (all, finite, on) = (32 * 32, 22 * 22, 10 * 10);
    let expected = [
        (2, 2 * (finite - on)),
        (4, all - on),
        (11, 2 * (all - finite)),
    ];
    assert!(refused.into_iter().eq(expected));
}

/// The patterns near the half above this step and near the step itself, on either side of 0, each with
/// the step that it goes to. No rounding has a say in it.
fn near(k: i64) -> Vec<(Reading, i64)> {
    let (half, step) = (
        Reading::of_metres(100 * k + 50),
        Reading::of_metres(100 * k),
    );
    let mut near = Vec::new();
    for by in -BESIDE..=BESIDE {
        near.push((half.beside(by), if by < 0 { k } else { k + 1 }));
        near.push((step.beside(by), k));
    }
    let opposite = |(reading, k): &(Reading, i64)| (reading.opposite(), -k);
    let opposites: Vec<_> = near.iter().map(opposite).collect();
    near.extend(opposites);
    near
}

/// Two tables that move the middle one of three sites, one by 6D and one by 4D.
struct Moving<'s, S> {
    service: &'s S,
    by_readings: Vec<u8>,
    by_steps: Vec<u8>,
    moves: usize,
    refused: usize,
}

const MOVED: u16 = 300;

impl<'s, S: Service> Moving<'s, S> {
    fn new(service: &'s S) -> Self {
        let mut table = empty_table();
        let sites = [
            Site::new(2, 5, -9),
            Site::new(MOVED, 0, 0),
            Site::new(65_535, -700, 40),
        ];
        call(service, &mut table, &sites.map(add).concat());
        Moving {
            service,
            by_readings: table.clone(),
            by_steps: table,
            moves: 0,
            refused: 0,
        }
    }

    /// The readings go to these steps. Both tables are the same, whatever is answered.
    fn assert_goes_to(&mut self, readings: Readings, to: Position) {
        let written = |c: i64| {
            if c.abs() <= HALF_WIDTH {
                c
            } else {
                STEP_OFF_GRID
            }
        };
        let words = Position::new(written(to.east), written(to.north));
        let site = Site {
            number: MOVED,
            position: words,
        };
        let (mut work, mut report) = ([0; WORK_LEN], [0; 2]);
        let mut given = |table: &mut [u8], command: &[u8]| {
            let answer = self.service.batch(table, &mut work, command, &mut report);
            (answer, report[..answer.2].to_vec())
        };
        let command = move_readings(MOVED, readings);
        let by_readings = given(&mut self.by_readings, &command);
        let by_steps = given(&mut self.by_steps, &move_site(site));
        let record: &[u8] = if to.on_grid() { &[0x2B] } else { &[0x21, 2] };
        let answer = |used: usize| ((0, used, record.len()), record.to_vec());
        assert_eq!(by_readings, answer(11), "{readings:?} {to:?}");
        assert_eq!(by_steps, answer(7));
        if to.on_grid() {
            let at = record_at(1);
            let stands = (
                word(&self.by_readings, at + 2),
                word(&self.by_readings, at + 4),
            );
            assert_eq!(stands, steps(to), "{readings:?} {to:?}");
        }
        assert!(
            self.by_readings == self.by_steps,
            "the table of the 4D: {readings:?} {to:?}"
        );
        self.moves += 1;
        self.refused += usize::from(!to.on_grid());
    }

    /// The patterns near one half and step in so many, and near the edge, on both axes; the other axis has
    /// one on the grid that is near another half or step.
    fn near_halves_and_steps(&mut self, every: usize) {
        let mut all: Vec<(Reading, i64)> = (0..=HALF_WIDTH).step_by(every).flat_map(near).collect();
        all.extend((HALF_WIDTH - 2..=HALF_WIDTH + 2).flat_map(near));
        let beside: Vec<(Reading, i64)> = all
            .iter()
            .copied()
            .filter(|(_, k)| k.abs() <= HALF_WIDTH)
            .collect();
        for (i, (reading, k)) in all.into_iter().enumerate() {
            let (other, j) = beside[(i * 7 + beside.len() / 2) % beside.len()];
            self.assert_goes_to(Readings::new(reading, other), Position::new(k, j));
            self.assert_goes_to(Readings::new(other, reading), Position::new(j, k));
        }
    }
}

fn some_halves_and_steps_and_the_edge(service: &impl Service) {
    let mut moving = Moving::new(service);
    moving.near_halves_and_steps(97);
    assert!(moving.moves >= 9_000 && moving.refused >= 150);
}

/// For every step of the grid.
#[cfg(feature = "proved")]
#[test]
fn every_half_and_every_step_and_the_edge() {
    let mut moving = Moving::new(&service::Proved);
    moving.near_halves_and_steps(1);
    println!("{} moves, {} refused", moving.moves, moving.refused);
    assert_eq!(moving.moves, 2 * 36 * (12_001 + 5));
    // Of the half at the edge five patterns are off the grid, on each side of 0 and on each axis; then
    // all of two steps and what is near them, and once more those of the edge.
    assert_eq!(moving.refused, 4 * (5 + 5 + 2 * 18));
}

/// Any pattern, by the second program's rounding.
#[cfg(feature = "proved")]
#[test]
fn any_pattern() {
    let mut random = Random::new(521);
    let mut moving = Moving::new(&service::Proved);
    let mut any = |reach: i64| loop {
        // Of every size, or of those that are on the grid or not far off it.
        let pattern = match reach {
            0 => random.between(0, u32::MAX.into()),
            _ => random.between(0x4000_0000, 0x4A00_0000) ^ random.between(0, 1) << 31,
        };
        let reading = Reading(u32::try_from(pattern).unwrap());
        if let Some(step) = reading.step() {
            let clamped = step.clamp(-40_000, 40_000);
            return (reading, i64::try_from(clamped).unwrap());
        }
    };
    for i in 0..300_000 {
        let ((east, to_east), (north, to_north)) = (any(i % 2), any(1));
        moving.assert_goes_to(Readings::new(east, north), Position::new(to_east, to_north));
    }
    println!("{} moves, {} refused", moving.moves, moving.refused);
    assert!(moving.refused >= 50_000 && moving.refused <= 250_000);
}

/// An accepted 61 or 6D ends a tour, also a 6D to where the site stands; a refused one leaves its words.
fn a_tour_ends_where_readings_are_accepted(service: &impl Service) {
    let table = touring(service, &[Site::new(1, 2, 3), Site::new(2, 7, 1)]);
    let tour = table[TOUR].to_vec();
    let accepted = [
        add_readings(3, metres(5, 5)),
        move_readings(1, metres(0, 0)),
        move_readings(2, metres(749, 50)),
    ];
    for command in accepted {
        let mut after = table.clone();
        let (_, report) = call(service, &mut after, &command);
        assert_eq!(report, [0x2B]);
        assert!(after[TOUR].iter().all(|byte| *byte == 0));
        let (_, report) = call(service, &mut after, &corner(at(0, 0)));
        assert_eq!(report, [0x21, 8]);
        // The same in one call.
        let (_, report) = call(
            service,
            &mut table.clone(),
            &[command, corner(at(0, 0))].concat(),
        );
        assert_eq!(report, [0x2B, 0x21, 8]);
    }
    let refused = [
        (add_readings(0, metres(5, 5)), 1),
        (add_readings(3, Readings::new(NO_NUMBER[1], ZERO)), 11),
        (add_readings(3, Readings::new(ZERO, LARGEST)), 2),
        (add_readings(2, metres(5, 5)), 3),
        (move_readings(0, metres(5, 5)), 1),
        (move_readings(2, Readings::new(ZERO, INFINITY)), 11),
        (move_readings(2, Readings::new(FIRST_OFF_GRID, ZERO)), 2),
        (move_readings(3, metres(5, 5)), 4),
    ];
    for (command, number) in refused {
        let mut after = table.clone();
        let (_, report) = call(service, &mut after, &command);
        assert_eq!(report, [0x21, number]);
        assert!(after == table && after[TOUR] == tour[..]);
        // The site that ended the leg before is still the nearest.
        let (_, report) = call(service, &mut after, &corner(at(10, 0)));
        assert_eq!(report, [0x3D, 0, 0]);
    }
}

const ROOMS: [usize; 11] = [0, 1, 2, 3, 4, 13, 14, 23, 60, 200, 1_000];

/// Calls with too little room, cut commands and unknown marks among them; what found no room is sent
/// again. All readings are finite.
fn run_written_out<S: Service>(random: &mut Random, pair: &mut Pair<S>, pool: &Pool, calls: usize) {
    for _ in 0..calls {
        let count = random.index(25);
        let commands = match random.once_in(5) {
            true => finite_tour(random, pool),
            false => pool.finite_commands(random, count),
        };
        let mut bytes = broken_off(random, commands);
        // A cut at any byte of a 61 or 6D.
        if random.once_in(4) {
            let readings = metres(random.between(-2_000, 2_000), 50);
            let last = match random.once_in(2) {
                true => add_readings(1, readings),
                false => move_readings(1, readings),
            };
            bytes.extend(&last[..1 + random.index(11)]);
        }
        let work_len = match random.once_in(20) {
            true => random.pick(&WRONG_WORK),
            false => WORK_LEN,
        };
        let rooms = [
            random.pick(&ROOMS),
            random.pick(&ROOMS),
            random.pick(&ROOMS),
            LONGEST_RECORD * 30,
        ];
        pair.send(&bytes, work_len, &rooms[random.index(4)..]);
    }
}

/// A tour of the pool without readings that are not finite.
fn finite_tour(random: &mut Random, pool: &Pool) -> Vec<Vec<u8>> {
    let mut tour = pool.tour(random);
    tour.retain(|command| ![ADD_READINGS, MOVE_READINGS].contains(&command[0]));
    tour
}

fn assert_compared(compared: &Compared, calls: usize, refusals: &[u8]) {
    println!("{compared:?}");
    assert!(compared.by_reason.keys().eq(&[0, 64, 66, 67, 68]));
    assert!(
        compared
            .by_reason
            .values()
            .all(|times| *times >= calls / 40)
    );
    assert!(compared.calls() >= calls && compared.accepted >= calls / 4);
    assert!(compared.by_refusal.keys().eq(refusals));
    assert!(compared.by_refusal.values().all(|times| *times >= 20));
}

/// "A run whose readings are all finite must answer, record for record, as the same run with the steps
/// written out, a step off the grid as 32,767."
fn the_same_run_with_the_steps_written_out(service: &impl Service) {
    let mut random = Random::new(522);
    let mut compared = Compared::default();
    for nth in 0..RUNS {
        let numbers = match nth % 5 {
            4 => 20 + random.index(100),
            _ => 1 + random.index(15),
        };
        let pool = Pool::new(&mut random, numbers);
        let mut pair = Pair::lay_out(service);
        run_written_out(&mut random, &mut pair, &pool, 12);
        compared.add(&pair.compared);
    }
    assert_compared(&compared, 12 * RUNS, &[1, 2, 3, 4]);
}

/// The same from a full table of any shape on, so that 5 comes up.
fn the_same_run_on_full_tables(service: &impl Service) {
    let mut random = Random::new(523);
    let mut compared = Compared::default();
    for _ in 0..RUNS / 40 {
        let pool = Pool::new(&mut random, 2 * MOST_SITES);
        let mut book = reference::book::Book::new();
        book.records(&pool.additions(&mut random));
        book.records(&[stand(pool.leg(&mut random)), begin(pool.leg(&mut random).s)]);
        let table = shape::table(&book, &mut Dealing::Any(&mut random));
        let mut pair = Pair::of(service, table);
        run_written_out(&mut random, &mut pair, &pool, 40);
        compared.add(&pair.compared);
    }
    assert_compared(&compared, 40 * (RUNS / 40), &[1, 2, 3, 4, 5]);
}

/// Each room up to that of all records; then the rest follows with room enough.
fn every_report_length(service: &impl Service) {
    let mut random = Random::new(524);
    let pool = Pool::new(&mut random, 9);
    let additions = pool.additions(&mut random).concat();
    let leg = stand(pool.leg(&mut random));
    let mut commands = pool.finite_commands(&mut random, 60);
    commands.push(print());
    let position = Position::new(-3, 12_000);
    commands.push(add_readings(40_000, readings_of(&mut random, position)));
    let commands = commands.concat();
    let begun = || {
        let mut pair = Pair::lay_out(service);
        pair.call(&[&additions[..], &leg[..]].concat(), WORK_LEN, 100);
        pair
    };
    let mut whole = begun();
    let (reason, used, needed) = whole.call(&commands, WORK_LEN, LONGEST_RECORD);
    assert_eq!((reason, used), (ALL_USED.into(), commands.len()));
    assert!(needed >= 150, "{needed}");
    for room in 0..=needed {
        let mut pair = begun();
        let (reason, ..) = pair.call(&commands, WORK_LEN, room);
        assert_eq!(reason == u32::from(NO_ROOM), room < needed);
        let mut pair = begun();
        let used = pair.send(&commands, WORK_LEN, &[room, LONGEST_RECORD]);
        assert_eq!(used, commands.len());
        assert!(pair.table() == whole.table());
    }
}

/// A 61 or 6D that is not finite is refused and changes nothing: without these the run leaves the same
/// table and has the same other records.
fn readings_that_are_not_finite_among_others(service: &impl Service) {
    let mut random = Random::new(525);
    let mut dropped = 0;
    for _ in 0..RUNS / 5 {
        let pool = Pool::new(&mut random, 12);
        let commands = pool.commands(&mut random, 120);
        let mut with = Desk::lay_out(service);
        let records = with.records(&commands);
        let pairs = commands.iter().zip(&records);
        let finite: Vec<_> = pairs
            .filter(|(_, record)| **record != Record::Refused(11))
            .collect();
        dropped += commands.len() - finite.len();
        let (commands, records): (Vec<_>, Vec<_>) = finite.into_iter().unzip();
        let commands: Vec<Vec<u8>> = commands.into_iter().cloned().collect();
        let mut without = Desk::lay_out(service);
        assert!(without.records(&commands).iter().eq(records));
        assert!(with.table == without.table);
    }
    println!("refused with 11: {dropped}");
    assert!(dropped >= RUNS / 10);
}
