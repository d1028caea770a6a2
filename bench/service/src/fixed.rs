//! The fixed cost of a call: that of one without commands, which is the test of the contents. It
//! takes turns with legs on a table of the same kind, since it is counted in those.

use crate::caller::{Calls, Singly, Together};
use crate::contenders::Hull;
use crate::lists::{self, Plain};
use plain::legs::Length;
use plain::tables::{Kind, change};
use plain::turns::{Program, take};
use reference::command;
use reference::random::Random;
use service::Proved;

/// One call each at a turn: of a table that is tested again and again the processor learns every
/// branch by heart, and the test seems twice as fast as it is between changes.
const TABLES_A_TURN: usize = 8;
const LEGS: usize = 200;

pub struct Fixed {
    pub sites: usize,
    pub standing: Option<Length>,
    /// Those that are counted in.
    pub legs: Length,
}

struct Task {
    idle: Vec<Calls>,
    legs: lists::Task,
}

/// Microseconds for a call, and for a leg by the service and by the hull.
pub struct Times {
    pub call: f64,
    pub leg: f64,
    pub hull: f64,
}

impl Fixed {
    fn table(&self, random: &mut Random) -> Vec<u8> {
        let mut table = Kind::fresh(self.sites).table(&Proved, random);
        if let Some(length) = self.standing {
            let leg = length.leg(random);
            change(&Proved, &mut table, &command::stand(leg));
        }
        table
    }

    fn task(&self, random: &mut Random) -> Task {
        let tables = (0..TABLES_A_TURN).map(|_| self.table(random));
        let idle = tables.map(|table| Calls::new(table, vec![vec![]]));
        let idle = idle.collect();
        let legs = (0..LEGS).map(|_| self.legs.leg(random)).collect();
        let legs = lists::Task::new(self.table(random), legs);
        Task { idle, legs }
    }

    pub fn measure(&self, random: &mut Random, turns: usize, repeats: usize) -> Times {
        let tasks: Vec<Task> = (0..turns).map(|_| self.task(random)).collect();
        let mut idle = Idle::new();
        let mut together = Together::new(LEGS);
        let mut hull = Plain::<Hull>::new(LEGS);
        // Taking up a table is little beside its legs.
        let mut leg = |task: &Task| {
            together.prepare(&task.legs);
            together.run(&task.legs);
        };
        let mut by_hull = |task: &Task| hull.run(&task.legs);
        let [call, leg, hull] = take(repeats, &tasks, [&mut idle, &mut leg, &mut by_hull]);
        Times {
            call: call / TABLES_A_TURN as f64,
            leg: leg / LEGS as f64,
            hull: hull / LEGS as f64,
        }
    }
}

/// A caller for each table of a turn.
struct Idle(Vec<Singly>);

impl Idle {
    fn new() -> Self {
        let callers = (0..TABLES_A_TURN).map(|_| Singly::new());
        Idle(callers.collect())
    }
}

impl Program<Task> for Idle {
    fn prepare(&mut self, task: &Task) {
        for (caller, calls) in self.0.iter_mut().zip(&task.idle) {
            caller.prepare(calls);
        }
    }

    fn run(&mut self, task: &Task) {
        for (caller, calls) in self.0.iter_mut().zip(&task.idle) {
            caller.run(calls);
        }
    }
}
