//! Legs of a tour: the service with all of them in one call and with one a call, beside plain Rust, and
//! the same legs by 4C.

use crate::caller::{Calls, LONGEST_RECORD, Singly, Together};
use crate::contenders::{Hull, Kept, Lister, Wrap};
use crate::lists::{self, Programs, entries};
use crate::times::Times;
use plain::legs::Length;
use plain::tables::{Kind, change, filled};
use plain::turns::{Program, take};
use plain::{record, ties};
use reference::command;
use reference::grid::{Leg, Position};
use reference::random::Random;
use service::Proved;
use std::hint::black_box;

/// A table in which a tour begins, the corners that follow, and the same legs by 4C.
pub struct Task {
    calls: Calls,
    legs: lists::Task,
}

impl AsRef<Calls> for Task {
    fn as_ref(&self) -> &Calls {
        &self.calls
    }
}

impl Task {
    /// A tour from the first of these corners on.
    fn new(mut table: Vec<u8>, corners: &[Position]) -> Self {
        let leg = |pair: &[Position]| Leg {
            s: pair[0],
            e: pair[1],
        };
        let legs = lists::Task::new(table.clone(), corners.windows(2).map(leg).collect());
        change(&Proved, &mut table, &command::begin(corners[0]));
        let commands = corners[1..].iter().copied().map(command::corner);
        Task {
            calls: Calls::new(table, commands.collect()),
            legs,
        }
    }

    /// Sites anywhere, and a tour of so many legs.
    pub fn anywhere(random: &mut Random, sites: usize, length: Length, legs: usize) -> Self {
        let table = Kind::fresh(sites).table(&Proved, random);
        Task::new(table, &length.tour(random, legs))
    }
}

/// A program in plain Rust that remembers the last site of a leg and leaves it out of the next.
struct Plain<L> {
    lister: L,
    report: Vec<u8>,
}

impl<L: Lister> Plain<L> {
    fn new(legs: usize) -> Self {
        Plain {
            lister: L::default(),
            report: vec![0; LONGEST_RECORD * legs],
        }
    }

    /// The records of the tour's legs, one behind the other.
    fn records(&mut self, task: &Task) -> &[u8] {
        let lists::Task { sites, legs, .. } = &task.legs;
        let (mut written, mut remembered) = (0, None);
        for leg in legs {
            let listed = self.lister.listed(black_box(sites), black_box(*leg));
            let report = &mut self.report[written..];
            let first = listed.first().map(|vertex| vertex.site.number);
            let put = |i: usize| listed[i];
            written += if first == remembered {
                record::put_but_first(listed.len(), put, report)
            } else {
                record::put(listed.len(), put, report)
            };
            remembered = listed.last().map(|vertex| vertex.site.number);
        }
        black_box(&self.report[..written])
    }
}

impl<L: Lister> Program<Task> for Plain<L> {
    fn run(&mut self, task: &Task) {
        self.records(task);
    }
}

/// The program with the same legs by 4C.
struct By4C<'p, P>(&'p mut P);

impl<P: Program<lists::Task>> Program<Task> for By4C<'_, P> {
    fn prepare(&mut self, task: &Task) {
        self.0.prepare(&task.legs);
    }

    fn run(&mut self, task: &Task) {
        self.0.run(&task.legs);
    }
}

/// The service and the programs in plain Rust, by 43 and by 4C.
struct Tours {
    together: Together,
    singly: Singly,
    wrap: Plain<Wrap>,
    kept: Plain<Kept>,
    hull: Plain<Hull>,
    by_4c: Programs,
}

impl Tours {
    /// For tours of so many legs.
    fn new(legs: usize) -> Self {
        Tours {
            together: Together::new(legs),
            singly: Singly::new(),
            wrap: Plain::new(legs),
            kept: Plain::new(legs),
            hull: Plain::new(legs),
            by_4c: Programs::new(legs),
        }
    }

    /// The bytes of the task's records, by 43 and by 4C. Fails if not all write the same.
    fn compare(&mut self, task: &Task) -> [usize; 2] {
        let (_, report) = self.together.outcome(&task.calls);
        assert!(report == self.wrap.records(task), "gift wrapping differs");
        assert!(report == self.kept.records(task), "kept distances differ");
        assert!(report == self.hull.records(task), "the hull differs");
        [report.len(), self.by_4c.compare(&task.legs)]
    }
}

/// Fails if the programs differ where sites tie along the whole leg: on the way back another one is
/// named.
pub fn compare_at_ties() {
    let mut tours = Tours::new(4);
    for case in ties::cases() {
        let additions: Vec<_> = case.sites.into_iter().map(command::add).collect();
        let Leg { s, e } = case.leg;
        let table = filled(&Proved, &additions.concat());
        tours.compare(&Task::new(table, &[s, e, s, s, e]));
    }
}

/// Microseconds for a leg, and the entries of a record.
pub struct Row {
    pub times: Times,
    pub entries: f64,
}

/// By 43, and the same legs by 4C. Fails if not all write the same records.
pub fn measure(tasks: &[Task], repeats: usize) -> [Row; 2] {
    let legs = tasks[0].legs.legs.len();
    let mut tours = Tours::new(legs);
    let mut written = [0; 2];
    for task in tasks {
        let [by_43, by_4c] = tours.compare(task);
        written = [written[0] + by_43, written[1] + by_4c];
    }
    let Tours {
        together,
        singly,
        wrap,
        kept,
        hull,
        by_4c,
    } = &mut tours;
    let [t, s, w, k, h, rest @ ..] = take(
        repeats,
        tasks,
        [
            together,
            singly,
            wrap,
            kept,
            hull,
            &mut By4C(&mut by_4c.together),
            &mut By4C(&mut by_4c.singly),
            &mut By4C(&mut by_4c.wrap),
            &mut By4C(&mut by_4c.kept),
            &mut By4C(&mut by_4c.hull),
        ],
    );
    let row = |times: [f64; 5], written| Row {
        times: Times::of(times.map(|time| time / legs as f64)),
        entries: entries(written, tasks.len() * legs),
    };
    [row([t, s, w, k, h], written[0]), row(rest, written[1])]
}
