//! How long the proved building of a split list takes, against plain Rust.
//!
//! `make bench` runs it: `rt lib` in crates/list_probe writes the proved code, then
//! `cargo run --release --manifest-path bench/lists/Cargo.toml`.
//!
//! Every time is for one list over 512 sites, its record included. The programs take turns at a
//! few tables; each turn counts with the median of its repeats. Only the ratios say something:
//! the times are the machine's.

mod hull;
mod insertion;
mod shared;

use insertion::Row;
use lists::{WORK_NEEDED, leg_words, probe_list, table};
use plain::turns::take;
use plain::vertex::Vertex;
use plain::{record, ties};
use reference::grid::{HALF_WIDTH, Leg, MOST_SITES, Position, Site};
use reference::random::Random;
use std::hint::black_box;

/// Many, so that the processor does not learn the branches by heart.
const TABLES: usize = 128;
const REPEATS: usize = 41;
/// How many tables a program lists before the next has its turn. Few: then what else the machine
/// does falls on all alike, and the median over the repeats leaves out a turn that it broke into.
const TURN: usize = 4;
const LONGEST_RECORD: usize = 3 + 10 * MOST_SITES;
const EMPTY_ROW: Row = [0; MOST_SITES];

struct Task {
    table: Vec<u8>,
    leg: [u16; 4],
    /// Its list.
    listed: Vec<Vertex>,
}

/// The most that the proved code may take, as a ratio to the same algorithm and to the hull.
const MOST_TO_SAME: f64 = 1.3;
const MOST_TO_HULL: f64 = 8.0;

/// Which of them a scenario is held to.
#[derive(Clone, Copy)]
enum Limit {
    ToSame,
    ToHull,
}

#[derive(Clone, Copy)]
enum Order {
    Random,
    Rising,
    Falling,
}

fn numbers(random: &mut Random, order: Order) -> Vec<u16> {
    let mut numbers: Vec<u16> = (1..=512).collect();
    match order {
        Order::Random => random.shuffle(&mut numbers),
        Order::Rising => {}
        Order::Falling => numbers.reverse(),
    }
    numbers
}

fn task(leg: Leg, positions: Vec<Position>, numbers: Vec<u16>) -> Task {
    let sites = numbers.into_iter().zip(positions);
    let sites: Vec<Site> = sites
        .map(|(number, position)| Site { number, position })
        .collect();
    task_of(leg, &sites)
}

fn task_of(leg: Leg, sites: &[Site]) -> Task {
    let (table, leg) = (table(sites), leg_words(&leg));
    let mut listed = Vec::new();
    let k = hull::listed(&table, MOST_SITES, leg, &mut listed);
    listed.truncate(k);
    Task { table, leg, listed }
}

/// Sites and leg anywhere on the grid.
fn anywhere(random: &mut Random) -> Task {
    let low = Position::new(-HALF_WIDTH, -HALF_WIDTH);
    let high = Position::new(HALF_WIDTH, HALF_WIDTH);
    let mut position = || random.position(low, high);
    let (s, e) = (position(), position());
    let positions = (0..MOST_SITES).map(|_| position()).collect();
    task(Leg { s, e }, positions, numbers(random, Order::Random))
}

/// Sites along a leg, all of them listed.
fn all_listed(random: &mut Random, order: Order) -> Task {
    let (leg, positions) = plain::legs::all_listed(random);
    task(leg, positions, numbers(random, order))
}

/// Fails if the three programs do not write the same record; its entries.
fn entries(task: &Task) -> usize {
    let Task { table, leg, .. } = task;
    let mut reports = [0, 1, 2].map(|mark| vec![mark; LONGEST_RECORD]);
    let [proved, same, hull] = &mut reports;
    let n = table.len() / lists::SITE_LEN;
    let lengths = [
        probe_list(table, n, *leg, &mut vec![0; WORK_NEEDED], proved),
        insertion::list(table, n, *leg, &mut { EMPTY_ROW }, same),
        hull::list(table, n, *leg, &mut Vec::new(), hull),
    ];
    assert!(lengths[0] > 0 && lengths == [lengths[0]; 3], "{lengths:?}");
    assert_eq!(proved[..lengths[0]], same[..lengths[0]]);
    assert_eq!(proved[..lengths[0]], hull[..lengths[0]]);
    (lengths[0] - 3) / 10
}

/// Lists the tasks of a turn.
fn each(tasks: &[Task], mut list: impl FnMut(&Task, &mut [u8]) -> usize) {
    let mut report = [0; LONGEST_RECORD];
    for task in tasks {
        black_box(list(black_box(task), black_box(&mut report)));
    }
}

/// Microseconds for a list by the proved code, the same algorithm, and the sort and hull, and for
/// the record alone.
fn measure(tasks: &[Task]) -> [f64; 4] {
    let mut work = vec![0; WORK_NEEDED];
    let mut row = EMPTY_ROW;
    let mut vertices: Vec<Vertex> = Vec::new();
    let turns: Vec<&[Task]> = tasks.chunks(TURN).collect();
    let mut proved = |tasks: &&[Task]| {
        each(tasks, |Task { table, leg, .. }, report| {
            probe_list(table, MOST_SITES, *leg, &mut work, report)
        });
    };
    let mut same = |tasks: &&[Task]| {
        each(tasks, |Task { table, leg, .. }, report| {
            insertion::list(table, MOST_SITES, *leg, &mut row, report)
        });
    };
    let mut hull = |tasks: &&[Task]| {
        each(tasks, |Task { table, leg, .. }, report| {
            hull::list(table, MOST_SITES, *leg, &mut vertices, report)
        });
    };
    let mut record = |tasks: &&[Task]| {
        each(tasks, |Task { listed, .. }, report| {
            record::put(listed.len(), |i| listed[i], report)
        });
    };
    let times = take(
        REPEATS,
        &turns,
        [&mut proved, &mut same, &mut hull, &mut record],
    );
    times.map(|time| time / TURN as f64)
}

struct Scenario {
    name: &'static str,
    limit: Limit,
    task: fn(&mut Random) -> Task,
}

const SCENARIOS: [Scenario; 4] = [
    Scenario {
        name: "anywhere, random order",
        limit: Limit::ToSame,
        task: anywhere,
    },
    Scenario {
        name: "all listed, random order",
        limit: Limit::ToHull,
        task: |random| all_listed(random, Order::Random),
    },
    Scenario {
        name: "all listed, rising order",
        limit: Limit::ToHull,
        task: |random| all_listed(random, Order::Rising),
    },
    Scenario {
        name: "all listed, falling order",
        limit: Limit::ToHull,
        task: |random| all_listed(random, Order::Falling),
    },
];

/// Prints the scenario's row.
fn run(random: &mut Random, scenario: &Scenario) {
    let tasks: Vec<Task> = (0..TABLES).map(|_| (scenario.task)(random)).collect();
    let entries: usize = tasks.iter().map(entries).sum();
    let entries = entries as f64 / TABLES as f64;
    let [proved, same, hull, record] = measure(&tasks);
    let (to_same, to_hull) = (proved / same, proved / hull);
    let without_record = (proved - record) / (hull - record);
    let (ratio, most, against) = match scenario.limit {
        Limit::ToSame => (to_same, MOST_TO_SAME, "same"),
        Limit::ToHull => (to_hull, MOST_TO_HULL, "hull"),
    };
    let verdict = if ratio <= most { "met" } else { "NOT met" };
    print!("{:26} {entries:>7.1} ", scenario.name);
    print!("{proved:>7.1} {same:>7.1} {hull:>7.1} {record:>7.1} ");
    print!("{to_same:>12.2} {to_hull:>12.2} {without_record:>12.2}  ");
    println!("{against} {most}: {verdict}");
}

fn main() {
    for case in ties::cases() {
        entries(&task_of(case.leg, &case.sites));
    }
    println!("One list over {MOST_SITES} sites, in microseconds.");
    println!(
        "Means over {TABLES} tables of medians of {REPEATS} repeats; the programs take turns."
    );
    println!("  proved  the proved code");
    println!("  same    the same algorithm in plain Rust");
    println!("  hull    a sort and a hull in plain Rust");
    println!("  record  writing the record in plain Rust, which each of the three does too");
    println!("  less record: proved to hull, with the record's time taken off both");
    println!();
    print!("{:26} {:>7} ", "sites", "entries");
    print!(
        "{:>7} {:>7} {:>7} {:>7} ",
        "proved", "same", "hull", "record"
    );
    print!(
        "{:>12} {:>12} {:>12}  ",
        "proved/same", "proved/hull", "less record"
    );
    println!("limit");
    let mut random = Random::new(41);
    for scenario in &SCENARIOS {
        run(&mut random, scenario);
    }
}
