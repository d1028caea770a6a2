//! How many nodes the search of a leg reads, beside the optimal number.
//!
//! `make bench` runs it: `rt lib` in crates/host writes the proved service, then
//! `cargo run --release --manifest-path bench/nodes/Cargo.toml`.
//!
//! The proved service makes the tables. The nodes are counted by the same search in plain Rust
//! over the table's bytes; for every leg its list must be the one that command 4C prints. A list
//! does not show the reading order: that search.rs reads as the crate tree_search does is seen
//! only by comparing the two.

mod optimal;
mod row;
mod search;

use plain::legs::Length;
use plain::tables::{Kind, Lie, Numbering, filled, serve};
use plain::ties;
use reference::command;
use reference::grid::{HALF_WIDTH, Leg, MOST_SITES};
use reference::random::Random;
use reference::record::{ENTRY_LEN, Record};
use reference::split::Entry;
use search::{Nodes, Search};
use service::Proved;
use service::bytes::steps;
use service::table::meaning;
use std::collections::BTreeSet;

/// Of each kind.
const TABLES: usize = 32;
/// On each table and of each length.
const LEGS: usize = 400;
const ROUNDS: usize = 8;
/// Enough for 100,000 changes: a round of a full table has 512.
const MANY_ROUNDS: usize = 196;
const LONGEST_RECORD: usize = 3 + ENTRY_LEN * MOST_SITES;

/// The most that may be read, as a ratio to the optimal number, by legs up to so many steps.
const MOST_TO_OPTIMAL: f64 = 1.15;
const BOUND_TO: i64 = 2_000;

/// Tests of a box, each with its optimal number: that of the search, and an exact one.
const TESTS: [&str; 2] = ["corner", "exact"];
type PerTest<T> = [T; TESTS.len()];

const LENGTHS: [Length; 6] = [
    Length::Of(100),
    Length::UpTo(BOUND_TO),
    Length::Of(BOUND_TO),
    Length::UpTo(HALF_WIDTH),
    Length::Of(HALF_WIDTH),
    Length::Any,
];

const fn full(lie: Lie, rounds: usize) -> Kind {
    Kind {
        lie,
        sites: MOST_SITES,
        numbering: Numbering::FOLLOWING,
        rounds,
    }
}

const KINDS: [(&str, Kind); 6] = [
    ("anywhere", full(Lie::Anywhere, 0)),
    ("anywhere, long history", full(Lie::Anywhere, ROUNDS)),
    (
        "anywhere, 100,000 changes",
        full(Lie::Anywhere, MANY_ROUNDS),
    ),
    ("clustered", full(Lie::Clustered, 0)),
    ("clustered, long history", full(Lie::Clustered, ROUNDS)),
    (
        "clustered, 100,000 changes",
        full(Lie::Clustered, MANY_ROUNDS),
    ),
];

/// Sums over legs.
#[derive(Clone, Copy, Default)]
struct Sums {
    legs: usize,
    entries: usize,
    read: usize,
    optimal: PerTest<usize>,
}

impl Sums {
    fn add(&mut self, other: &Sums) {
        self.legs += other.legs;
        self.entries += other.entries;
        self.read += other.read;
        for (sum, more) in self.optimal.iter_mut().zip(other.optimal) {
            *sum += more;
        }
    }

    fn mean(&self, sum: usize) -> f64 {
        sum as f64 / self.legs as f64
    }

    fn ratios(&self) -> PerTest<f64> {
        self.optimal.map(|sum| self.read as f64 / sum as f64)
    }
}

/// The largest ratios.
type Worst = PerTest<f64>;

fn raise(worst: &mut Worst, ratios: Worst) {
    for (worst, ratio) in worst.iter_mut().zip(ratios) {
        *worst = worst.max(ratio);
    }
}

/// What a row prints.
#[derive(Default)]
struct Row {
    all: Sums,
    worst_table: Worst,
    worst_leg: Worst,
}

impl Row {
    fn measure(random: &mut Random, tables: &mut [Vec<u8>], length: Length) -> Self {
        let mut row = Row::default();
        for table in tables {
            let legs: Vec<Leg> = (0..LEGS).map(|_| length.leg(random)).collect();
            let mut sums = Sums::default();
            for leg in measure(table, &legs) {
                sums.add(&leg);
                raise(&mut row.worst_leg, leg.ratios());
            }
            raise(&mut row.worst_table, sums.ratios());
            row.all.add(&sums);
        }
        row
    }

    fn print(&self, kind: &str, length: Length) {
        let Row {
            all, worst_table, ..
        } = self;
        print!("{kind:26} {:>11} ", length.name());
        print!("{:>7.1} {:>6.2}", all.mean(all.entries), all.mean(all.read));
        for ((optimal, ratio), worst) in all.optimal.iter().zip(all.ratios()).zip(worst_table) {
            print!("  {:>7.2} {ratio:>6.3} {worst:>6.3}", all.mean(*optimal));
        }
        println!();
    }
}

/// Fails if the proved service lists something else for one of the legs.
fn measure(table: &mut [u8], legs: &[Leg]) -> Vec<Sums> {
    let commands: Vec<_> = legs.iter().map(|leg| command::list(*leg)).collect();
    let report = serve(
        &Proved,
        table,
        &commands.concat(),
        LONGEST_RECORD * legs.len(),
    );
    let records = Record::read_all(&report).expect("whole records");
    assert_eq!(records.len(), legs.len());
    let legs = legs.iter().zip(records);
    legs.map(|(leg, record)| measure_leg(table, leg, &record))
        .collect()
}

fn measure_leg(table: &[u8], leg: &Leg, printed: &Record) -> Sums {
    let ((s_east, s_north), (e_east, e_north)) = (steps(leg.s), steps(leg.e));
    let leg = [s_east, s_north, e_east, e_north];
    let Search { row, read, .. } = Search::run(table, leg);
    let entry = |i: usize| Entry {
        site: row.vertices()[i].site.reference,
        start: row.start(i),
    };
    let list = (0..row.vertices().len()).map(entry).collect();
    assert_eq!(*printed, Record::List(list));
    let corner = optimal::by_corner(table, leg, &row);
    let exact = optimal::by_box(table, leg, &row);
    // What must be read is read.
    assert!(holds(&read, &corner) && holds(&corner, &exact));
    Sums {
        legs: 1,
        entries: row.vertices().len(),
        read: read.len(),
        optimal: [corner.len(), exact.len()],
    }
}

fn holds(more: &Nodes, fewer: &Nodes) -> bool {
    let more: BTreeSet<_> = more.iter().collect();
    fewer.iter().all(|node| more.contains(node))
}

/// The largest ratios in rows of legs under the bound.
#[derive(Default)]
struct Largest {
    row: Worst,
    table: Worst,
    leg: Worst,
}

impl Largest {
    fn take(&mut self, row: &Row) {
        raise(&mut self.row, row.all.ratios());
        raise(&mut self.table, row.worst_table);
        raise(&mut self.leg, row.worst_leg);
    }

    fn print(&self) {
        println!("Legs up to {BOUND_TO} steps, largest ratios against {MOST_TO_OPTIMAL}:");
        for (i, test) in TESTS.into_iter().enumerate() {
            let (row, table) = (judged(self.row[i]), judged(self.table[i]));
            print!("  {test:6}  mean of a row {row}, mean of one table {table}");
            println!(", one leg {:.2} (no bound)", self.leg[i]);
        }
    }
}

fn judged(ratio: f64) -> String {
    let met = ratio <= MOST_TO_OPTIMAL;
    format!("{ratio:.3} ({})", if met { "met" } else { "NOT met" })
}

fn print_head() {
    println!("Nodes read for one leg over {MOST_SITES} sites.");
    println!("Means over {TABLES} tables and {LEGS} legs on each; lengths in steps.");
    println!("  long history  {ROUNDS} times a random half removed and as many added");
    println!("  entries       of the list");
    println!("  read          by the search, the root included");
    println!("  corner        optimal with the search's own test: the root, and each node that");
    println!("                the corner test does not skip by the final list");
    println!("  exact         optimal with any test: the root, and each node in whose box a site");
    println!("                could change the final list (lemma 5.1 of document 002)");
    println!("  ratio         read to the optimal number before it");
    println!("  worst         the same on the table where it is largest");
    println!();
    print!(
        "{:26} {:>11} {:>7} {:>6}",
        "sites", "legs", "entries", "read"
    );
    for test in TESTS {
        print!("  {test:>7} {:>6} {:>6}", "ratio", "worst");
    }
    println!();
}

/// Fails if the search lists something else where sites tie along the whole leg.
fn compare_at_ties() {
    for case in ties::cases() {
        let additions: Vec<_> = case.sites.into_iter().map(command::add).collect();
        let mut table = filled(&Proved, &additions.concat());
        measure(&mut table, &[case.leg]);
    }
}

fn main() {
    compare_at_ties();
    print_head();
    let mut random = Random::new(43);
    let mut largest = Largest::default();
    for (name, kind) in KINDS {
        let tables = (0..TABLES).map(|_| kind.table(&Proved, &mut random));
        let mut tables: Vec<Vec<u8>> = tables.collect();
        for length in LENGTHS {
            let row = Row::measure(&mut random, &mut tables, length);
            row.print(name, length);
            if length.within(BOUND_TO) {
                largest.take(&row);
            }
        }
        let nodes = |table: &Vec<u8>| meaning(table).expect("the table is sound").nodes;
        let nodes: usize = tables.iter().map(nodes).sum();
        println!(
            "{:26} nodes in a tree: {:.1}",
            "",
            nodes as f64 / TABLES as f64
        );
    }
    println!();
    largest.print();
}
