//! Accepted changes: the service with many a call and with one, beside a sorted array in plain
//! Rust whose standing list is made anew after each change. Additions and moves by steps and, on the
//! same tables and to the same positions, by readings.

use crate::caller::{Calls, Singly, Together};
use crate::contenders::{Hull, Kept, Lister, Wrap};
use crate::sites::{held, plain, rounded, words};
use crate::times::Times;
use plain::legs::{Length, anywhere};
use plain::reading::reading;
use plain::tables::{Kind, Numbering, change};
use plain::turns::{Program, mean, medians};
use plain::vertex::{Leg, Site};
use reference::command::{self, Command};
use reference::grid::{self, MOST_SITES, Position};
use reference::random::Random;
use reference::reading::Readings;
use service::Proved;
use service::bytes::listed;
use std::hint::black_box;

/// Which changes a row is about.
#[derive(Clone, Copy)]
pub enum Change {
    Add,
    Remove,
    Move,
}

impl Change {
    /// The ways in which it is asked for: by steps, and by readings where there is such a command.
    pub fn ways(self) -> &'static [&'static str] {
        match self {
            Change::Add => &["add", "add by 61"],
            Change::Remove => &["remove"],
            Change::Move => &["move", "move by 6D"],
        }
    }

    /// Changes of the sites with these numbers.
    fn commands(self, random: &mut Random, numbers: &[u16]) -> Vec<Command> {
        let mut site = |number| grid::Site {
            number,
            position: anywhere(random),
        };
        let command = |number: &u16| match self {
            Change::Add => Command::Add(site(*number)),
            Change::Remove => Command::Remove(*number),
            Change::Move => Command::Move(site(*number)),
        };
        numbers.iter().map(command).collect()
    }
}

/// A table, with a standing leg or none, its sites as a plain array, and changes.
pub struct Task {
    calls: Calls,
    sites: Vec<Site>,
    leg: Option<Leg>,
    changes: Vec<Command>,
}

impl AsRef<Calls> for Task {
    fn as_ref(&self) -> &Calls {
        &self.calls
    }
}

impl Task {
    /// So many changes at 512 sites, numbered so; additions end there, and removals begin there.
    pub fn new(
        random: &mut Random,
        kind: Change,
        leg: Option<Length>,
        numbering: Numbering,
        count: usize,
    ) -> Self {
        let fresh = Kind {
            numbering,
            ..Kind::fresh(MOST_SITES)
        };
        let mut table = fresh.table(&Proved, random);
        let mut numbers = fresh.numbers();
        random.shuffle(&mut numbers);
        numbers.truncate(count);
        if let Change::Add = kind {
            let removals = Change::Remove.commands(random, &numbers);
            change(&Proved, &mut table, &bytes(&removals).concat());
        }
        let leg = leg.map(|length| length.leg(random));
        if let Some(leg) = leg {
            change(&Proved, &mut table, &command::stand(leg));
        }
        let changes = kind.commands(random, &numbers);
        Task {
            sites: held(&table),
            calls: Calls::new(table, bytes(&changes)),
            leg: leg.map(words),
            changes,
        }
    }

    /// This task, and the same by readings where its changes have positions.
    pub fn in_each_way(self, random: &mut Random) -> Vec<Self> {
        let changes = self
            .changes
            .iter()
            .map(|change| by_readings(random, change));
        let changes: Option<Vec<_>> = changes.collect();
        let by_readings = changes.map(|changes| Task {
            sites: self.sites.clone(),
            calls: Calls::new(self.calls.table.clone(), bytes(&changes)),
            leg: self.leg,
            changes,
        });
        [Some(self), by_readings].into_iter().flatten().collect()
    }
}

fn by_readings(random: &mut Random, change: &Command) -> Option<Command> {
    let mut readings = |position: Position| Readings {
        east: reading(random, position.east),
        north: reading(random, position.north),
    };
    match *change {
        Command::Add(site) => Some(Command::AddReadings(site.number, readings(site.position))),
        Command::Move(site) => Some(Command::MoveReadings(site.number, readings(site.position))),
        _ => None,
    }
}

fn bytes(changes: &[Command]) -> Vec<Vec<u8>> {
    let bytes = |change: &Command| match *change {
        Command::Add(site) => command::add(site),
        Command::Move(site) => command::move_site(site),
        Command::Remove(number) => command::remove(number),
        Command::AddReadings(number, readings) => command::add_readings(number, readings),
        Command::MoveReadings(number, readings) => command::move_readings(number, readings),
        _ => unreachable!("a change of sites"),
    };
    changes.iter().map(bytes).collect()
}

/// A sorted array, and what lists its standing leg.
#[derive(Default)]
struct Plain<L> {
    sites: Vec<Site>,
    lister: L,
}

impl<L: Lister> Plain<L> {
    fn carry_out(&mut self, change: &Command) {
        let number = change.number().expect("a change has a number");
        let place = self.sites.binary_search_by_key(&number, |site| site.number);
        match (*change, place) {
            (Command::Add(site), Err(k)) => self.sites.insert(k, plain(site)),
            (Command::Remove(_), Ok(k)) => drop(self.sites.remove(k)),
            (Command::Move(site), Ok(k)) => self.sites[k] = plain(site),
            (Command::AddReadings(_, readings), Err(k)) => {
                self.sites.insert(k, rounded(number, readings));
            }
            (Command::MoveReadings(_, readings), Ok(k)) => {
                self.sites[k] = rounded(number, readings);
            }
            _ => unreachable!("every change is accepted"),
        }
    }

    /// The sites after all changes, and the numbers of the standing list.
    fn outcome(&mut self, task: &Task) -> (Vec<Site>, Vec<u16>) {
        self.prepare(task);
        self.run(task);
        let listed = task.leg.map(|leg| self.lister.listed(&self.sites, leg));
        let vertices = listed.into_iter().flatten();
        let numbers = vertices.map(|vertex| vertex.site.number).collect();
        (self.sites.clone(), numbers)
    }
}

impl<L: Lister> Program<Task> for Plain<L> {
    fn prepare(&mut self, task: &Task) {
        self.sites.clear();
        self.sites.reserve(MOST_SITES);
        self.sites.extend(&task.sites);
    }

    fn run(&mut self, task: &Task) {
        for change in &task.changes {
            self.carry_out(black_box(change));
            if let Some(leg) = task.leg {
                black_box(self.lister.listed(&self.sites, black_box(leg)));
            }
        }
    }
}

/// Microseconds for a change in each way; the tasks of a table in all ways follow each other. Fails if
/// not all programs end with the same sites and standing list.
pub fn measure(tasks: &[Task], ways: usize, repeats: usize) -> Vec<Times> {
    let (mut together, mut singly) = (Together::new(1), Singly::new());
    let (mut wrap, mut kept) = (Plain::<Wrap>::default(), Plain::<Kept>::default());
    let mut hull = Plain::<Hull>::default();
    for task in tasks {
        let (table, _) = together.outcome(&task.calls);
        let outcome = (held(table), listed(table));
        assert!(outcome == wrap.outcome(task), "gift wrapping differs");
        assert!(outcome == kept.outcome(task), "kept distances differ");
        assert!(outcome == hull.outcome(task), "the hull differs");
    }
    let times = medians(
        repeats,
        tasks,
        [&mut together, &mut singly, &mut wrap, &mut kept, &mut hull],
    );
    let changes = tasks[0].changes.len() as f64;
    let row = |way| {
        let times: Vec<_> = times.iter().skip(way).step_by(ways).copied().collect();
        Times::of(mean(&times).map(|time| time / changes))
    };
    (0..ways).map(row).collect()
}
