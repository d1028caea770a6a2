//! How long the calls of the proved service take, against plain Rust.
//!
//! `make bench` runs it: `rt lib` in crates/host writes the proved service, then
//! `cargo run --release --manifest-path bench/service/Cargo.toml`.
//!
//! The programs take turns at each table; a time is the mean over the tables of the medians over
//! the repeats. Only the ratios say something: the times are the machine's.

mod caller;
mod changes;
mod contenders;
mod fixed;
mod lists;
mod machine;
mod sites;
mod targets;
mod times;
mod tours;

use changes::Change;
use fixed::Fixed;
use plain::legs::Length;
use plain::tables::Numbering;
use plain::verdict::Bound;
use reference::grid::{HALF_WIDTH, MOST_SITES};
use reference::random::Random;
use targets::Targets;
use times::Times;

/// Many, so that the processor does not learn the branches by heart.
const TABLES: usize = 16;
const REPEATS: usize = 11;
const LEGS: usize = 200;
/// Legs of 512 entries.
const WORST_LEGS: usize = 10;
const CHANGES: usize = 100;
/// Numbers with gaps: the 512th is the last that 16 bits hold.
const FAR_APART: u16 = 127;
/// How the sites are numbered in a row of changes, and what the row says of it.
const NUMBERINGS: [(Numbering, &str); 3] = [
    (Numbering::FOLLOWING, ""),
    (Numbering::Apart(FAR_APART), ", gaps"),
    (Numbering::Scattered, ", scattered"),
];
/// As long as the grid is wide.
const ACROSS: i64 = 2 * HALF_WIDTH;
/// Up to here a leg is short.
const SHORT: i64 = 2_000;

/// Half the grid's width and all of it, before C-12 and now.
const LENGTHS: [Length; 8] = [
    Length::Of(100),
    Length::Of(500),
    Length::Of(SHORT),
    Length::UpTo(SHORT),
    Length::Of(8_000),
    Length::Of(HALF_WIDTH),
    Length::Of(16_000),
    Length::Of(ACROSS),
];

/// The legs of a tour; from the grid's middle none is much longer than half its width.
const TOURS: [Length; 4] = [
    Length::Of(500),
    Length::UpTo(SHORT),
    Length::Of(8_000),
    Length::Of(HALF_WIDTH),
];

fn print_head() {
    println!("Machine: {}.", machine::name());
    println!(
        "Microseconds of processor time. Means over {TABLES} tables of medians of {REPEATS} repeats; the"
    );
    println!("programs take turns. Sites and legs anywhere on the grid, lengths in steps.");
    println!("  a call  the proved service, so many legs or changes in one call");
    println!("  wrap    gift wrapping by scan in plain Rust, each scan over the sites");
    println!("  kept    the same, the distances computed once a leg and kept");
    println!("  hull    a scan, a sort and a hull in plain Rust");
    println!(
        "  gaps    the sites' numbers are {FAR_APART} apart; scattered: any; else they follow each other from 1"
    );
    println!("  by 61   the same additions by readings of a receiver; by 6D: the same moves");
    println!("Then how many times faster the service is: many a call, and one a call.");
}

/// What the targets of a leg are: against wrapping and against the hull.
fn leg_target(sites: usize, length: Length) -> Option<(f64, f64)> {
    match (sites, length) {
        (64, Length::UpTo(SHORT)) => Some((1.0, 3.0)),
        (MOST_SITES, Length::UpTo(SHORT)) => Some((3.0, 10.0)),
        (MOST_SITES, Length::Of(8_000 | HALF_WIDTH)) => Some((3.0, 2.0)),
        (MOST_SITES, Length::Of(16_000 | ACROSS)) => Some((2.5, 0.8)),
        _ => None,
    }
}

fn legs(random: &mut Random, targets: &mut Targets) {
    println!();
    Times::print_head("a leg, its record written", LEGS);
    for sites in [64, MOST_SITES] {
        for length in LENGTHS {
            let task = |_| lists::Task::anywhere(random, sites, length, LEGS);
            let tasks: Vec<_> = (0..TABLES).map(task).collect();
            let (times, entries) = lists::measure(&tasks, REPEATS);
            let name = length.name();
            times.print(&format!("{sites} sites, {name} ({entries:.1} entries)"));
            if let Some((wrap, hull)) = leg_target(sites, length) {
                targets.faster(&format!("{sites} sites, a leg {name}"), &times, wrap, hull);
            }
        }
    }
}

/// Their own random numbers, so that the other rows have the same as without these.
fn tours(targets: &mut Targets) {
    println!();
    Times::print_head("a leg of a tour, its record written", LEGS);
    let mut random = Random::new(59);
    for sites in [64, MOST_SITES] {
        for length in TOURS {
            let task = |_| tours::Task::anywhere(&mut random, sites, length, LEGS);
            let tasks: Vec<_> = (0..TABLES).map(task).collect();
            let [by_43, by_4c] = tours::measure(&tasks, REPEATS);
            let name = length.name();
            let first = format!("{sites} sites, {name} ({:.1} entries)", by_43.entries);
            by_43.times.print(&first);
            let again = format!("  the same by 4C ({:.1} entries)", by_4c.entries);
            by_4c.times.print(&again);
            if sites == MOST_SITES {
                let what = format!("{sites} sites, a tour's leg {name}");
                targets.beside(&what, &by_43.times);
                let ratio = by_4c.times.together / by_43.times.together;
                targets.show(&what, "4C of the same leg", ratio);
            }
        }
    }
}

fn standing(leg: Option<Length>) -> String {
    let name = |leg: Length| format!("leg {}", leg.name());
    leg.map_or("no leg".to_string(), name)
}

fn worst(random: &mut Random, targets: &mut Targets) {
    println!();
    Times::print_head("the worst list", WORST_LEGS);
    let task = |_| lists::Task::all_listed(random, WORST_LEGS);
    let tasks: Vec<_> = (0..TABLES).map(task).collect();
    let (times, entries) = lists::measure(&tasks, REPEATS);
    let what = format!("{MOST_SITES} sites, a list of {entries} entries");
    times.print(&what);
    targets.faster_than_wrapping(&what, &times, 8.0);
    targets.within(&what, &times, 6.0);
}

/// Readings have their own random numbers, so that the other rows have the same as without these.
fn changes(random: &mut Random, targets: &mut Targets) {
    println!();
    Times::print_head("a change, no record of the list", CHANGES);
    let leg = Some(Length::Of(SHORT));
    let mut of_readings = Random::new(61);
    for kind in [Change::Add, Change::Remove, Change::Move] {
        let mut rows = |leg, numbered| change_rows(random, &mut of_readings, kind, leg, numbered);
        rows(None, NUMBERINGS[0]);
        for numbered in NUMBERINGS {
            let rows = rows(leg, numbered);
            for (way, (what, times)) in rows.iter().enumerate() {
                match (numbered.0, way) {
                    (Numbering::Scattered, _) => targets.beside(what, times),
                    (Numbering::Apart(_), 0) => targets.faster(what, times, 8.0, 25.0),
                    (Numbering::Apart(_), _) => targets.faster_by_readings(what, times, 8.0),
                }
            }
            if let [(_, by_steps), (what, by_readings)] = &rows[..] {
                let ratio = by_steps.together / by_readings.together;
                targets.show(what, "the same by steps", ratio);
            }
        }
    }
}

/// Prints a row for each way, in turns on the same tables; what each is about, and its times.
fn change_rows(
    random: &mut Random,
    of_readings: &mut Random,
    kind: Change,
    leg: Option<Length>,
    (numbering, told): (Numbering, &str),
) -> Vec<(String, Times)> {
    let task = |_| changes::Task::new(random, kind, leg, numbering, CHANGES);
    let in_each_way = |task: changes::Task| task.in_each_way(of_readings);
    let tasks: Vec<_> = (0..TABLES).map(task).flat_map(in_each_way).collect();
    let ways = kind.ways();
    let times = changes::measure(&tasks, ways.len(), REPEATS);
    let row = |(way, times): (&&str, Times)| {
        let what = format!("{way}, {}{told}", standing(leg));
        times.print(&what);
        (format!("512 sites, {what}"), times)
    };
    ways.iter().zip(times).map(row).collect()
}

fn fixed(random: &mut Random, targets: &mut Targets) {
    println!();
    print!("{:36} {:>10}", "a call without commands", "call");
    println!(" {:>8} {:>8}", "leg", "by hull");
    for sites in [0, 64, MOST_SITES] {
        for leg in [None, Some(Length::Of(SHORT))] {
            let fixed = Fixed {
                sites,
                standing: leg,
                legs: Length::UpTo(SHORT),
            };
            let times = fixed.measure(random, TABLES, REPEATS);
            let what = format!("{sites} sites, {}", standing(leg));
            print!("{what:36} {:>10.2}", times.call);
            match sites {
                // Without a site a leg is refused.
                0 => println!(" {:>8} {:>8}", "-", "-"),
                _ => println!(" {:>8.2} {:>8.2}", times.leg, times.hull),
            }
            if sites == MOST_SITES {
                let (what, most) = (format!("{what}, a call, in legs"), Bound::AtMost(1.2));
                targets.show(&what, "by the service", times.call / times.leg);
                targets.hold(
                    &what,
                    "by scan, sort and hull",
                    times.call / times.hull,
                    most,
                );
            }
        }
    }
}

fn main() {
    lists::compare_at_ties();
    tours::compare_at_ties();
    print_head();
    let mut random = Random::new(47);
    let mut targets = Targets::default();
    legs(&mut random, &mut targets);
    worst(&mut random, &mut targets);
    changes(&mut random, &mut targets);
    fixed(&mut random, &mut targets);
    tours(&mut targets);
    println!();
    println!("Targets, many a call; a leg in which a call is counted is one up to {SHORT} steps.");
    targets.print();
}
