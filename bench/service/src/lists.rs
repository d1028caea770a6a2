//! Lists of legs: the service with all legs in one call and with one leg a call, beside plain
//! Rust.

use crate::caller::{Calls, LONGEST_RECORD, Singly, Together};
use crate::contenders::{Hull, Kept, Lister, Wrap};
use crate::sites::{held, words};
use crate::times::Times;
use plain::legs::{Length, all_listed};
use plain::tables::{Kind, filled};
use plain::ties;
use plain::turns::{Program, take};
use plain::vertex::{Leg, Site};
use reference::command;
use reference::grid::{self, MOST_SITES};
use reference::random::Random;
use reference::record::ENTRY_LEN;
use service::Proved;
use std::hint::black_box;

/// A table, its sites as a plain array, and legs to be listed.
pub struct Task {
    pub calls: Calls,
    pub sites: Vec<Site>,
    pub legs: Vec<Leg>,
}

impl AsRef<Calls> for Task {
    fn as_ref(&self) -> &Calls {
        &self.calls
    }
}

impl Task {
    pub fn new(table: Vec<u8>, legs: Vec<grid::Leg>) -> Self {
        let commands = legs.iter().copied().map(command::list).collect();
        Task {
            sites: held(&table),
            calls: Calls::new(table, commands),
            legs: legs.into_iter().map(words).collect(),
        }
    }

    /// Sites anywhere, and random legs.
    pub fn anywhere(random: &mut Random, sites: usize, length: Length, legs: usize) -> Self {
        let table = Kind::fresh(sites).table(&Proved, random);
        let legs = (0..legs).map(|_| length.leg(random)).collect();
        Task::new(table, legs)
    }

    /// A leg whose list has 512 entries, so many times; the sites added in any order.
    pub fn all_listed(random: &mut Random, legs: usize) -> Self {
        let (leg, mut positions) = all_listed(random);
        random.shuffle(&mut positions);
        let mut numbers: Vec<u16> = (1..).take(MOST_SITES).collect();
        random.shuffle(&mut numbers);
        let sites = numbers.into_iter().zip(positions);
        let additions = sites.map(|(number, position)| {
            let site = grid::Site { number, position };
            command::add(site)
        });
        let additions: Vec<_> = additions.collect();
        Task::new(filled(&Proved, &additions.concat()), vec![leg; legs])
    }
}

/// A program in plain Rust that writes records.
pub struct Plain<L> {
    lister: L,
    report: Vec<u8>,
}

impl<L: Lister> Plain<L> {
    pub fn new(lists: usize) -> Self {
        Plain {
            lister: L::default(),
            report: vec![0; LONGEST_RECORD * lists],
        }
    }

    /// The records of the task's legs, one behind the other.
    fn records(&mut self, task: &Task) -> &[u8] {
        let mut written = 0;
        for leg in &task.legs {
            let (sites, leg) = (black_box(&task.sites), black_box(*leg));
            written += self.lister.list(sites, leg, &mut self.report[written..]);
        }
        black_box(&self.report[..written])
    }
}

impl<L: Lister> Program<Task> for Plain<L> {
    fn run(&mut self, task: &Task) {
        self.records(task);
    }
}

/// The service and the programs in plain Rust.
pub struct Programs {
    pub together: Together,
    pub singly: Singly,
    pub wrap: Plain<Wrap>,
    pub kept: Plain<Kept>,
    pub hull: Plain<Hull>,
}

impl Programs {
    /// For tasks of so many legs.
    pub fn new(legs: usize) -> Self {
        Programs {
            together: Together::new(legs),
            singly: Singly::new(),
            wrap: Plain::new(legs),
            kept: Plain::new(legs),
            hull: Plain::new(legs),
        }
    }

    /// The bytes of the task's records. Fails if not all write the same.
    pub fn compare(&mut self, task: &Task) -> usize {
        let (_, report) = self.together.outcome(&task.calls);
        assert!(report == self.wrap.records(task), "gift wrapping differs");
        assert!(report == self.kept.records(task), "kept distances differ");
        assert!(report == self.hull.records(task), "the hull differs");
        report.len()
    }
}

/// Fails if the programs differ where sites tie along the whole leg.
pub fn compare_at_ties() {
    let mut programs = Programs::new(1);
    for case in ties::cases() {
        let additions: Vec<_> = case.sites.into_iter().map(command::add).collect();
        let table = filled(&Proved, &additions.concat());
        programs.compare(&Task::new(table, vec![case.leg]));
    }
}

/// Microseconds for a leg, and the entries of a list. Fails if not all write the same records.
pub fn measure(tasks: &[Task], repeats: usize) -> (Times, f64) {
    let legs = tasks[0].legs.len();
    let mut programs = Programs::new(legs);
    let written: usize = tasks.iter().map(|task| programs.compare(task)).sum();
    let Programs {
        together,
        singly,
        wrap,
        kept,
        hull,
    } = &mut programs;
    let entries = entries(written, tasks.len() * legs);
    let times = take(repeats, tasks, [together, singly, wrap, kept, hull]);
    (Times::of(times.map(|time| time / legs as f64)), entries)
}

/// The mean number of entries in so many records of so many bytes.
pub fn entries(written: usize, records: usize) -> f64 {
    (written as f64 / records as f64 - 3.0) / ENTRY_LEN as f64
}
