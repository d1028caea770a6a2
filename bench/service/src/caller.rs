//! The proved service with buffers that are kept from call to call, and commands sent together or
//! singly.

use plain::turns::Program;
use reference::grid::{MOST_SITES, TABLE_LEN, WORK_LEN};
use reference::record::ENTRY_LEN;
use service::{Proved, Service};
use std::hint::black_box;

pub const LONGEST_RECORD: usize = 3 + ENTRY_LEN * MOST_SITES;

/// A table and commands to it that are all used.
pub struct Calls {
    pub table: Vec<u8>,
    commands: Vec<Vec<u8>>,
    all: Vec<u8>,
}

impl Calls {
    pub fn new(table: Vec<u8>, commands: Vec<Vec<u8>>) -> Self {
        Calls {
            table,
            all: commands.concat(),
            commands,
        }
    }
}

impl AsRef<Calls> for Calls {
    fn as_ref(&self) -> &Calls {
        self
    }
}

struct Caller {
    table: Vec<u8>,
    work: Vec<u8>,
    report: Vec<u8>,
}

impl Caller {
    /// With room for so many lists in a report.
    fn new(lists: usize) -> Self {
        Caller {
            table: vec![0; TABLE_LEN],
            work: vec![0; WORK_LEN],
            report: vec![0; LONGEST_RECORD * lists],
        }
    }

    fn take_up(&mut self, calls: &Calls) {
        self.table.copy_from_slice(&calls.table);
    }

    /// One batch call; its report.
    fn call(&mut self, commands: &[u8]) -> &[u8] {
        let table = black_box(&mut self.table);
        let commands = black_box(commands);
        let (reason, used, written) =
            Proved.batch(table, &mut self.work, commands, &mut self.report);
        assert!(reason == 0 && used == commands.len());
        black_box(&self.report[..written])
    }
}

/// All commands in one call.
pub struct Together(Caller);

impl Together {
    /// Commands that ask for so many lists.
    pub fn new(lists: usize) -> Self {
        Together(Caller::new(lists))
    }

    /// The table after the call, and the report.
    pub fn outcome(&mut self, calls: &Calls) -> (&[u8], &[u8]) {
        self.0.take_up(calls);
        let written = self.0.call(&calls.all).len();
        (&self.0.table, &self.0.report[..written])
    }
}

impl<T: AsRef<Calls>> Program<T> for Together {
    fn prepare(&mut self, task: &T) {
        self.0.take_up(task.as_ref());
    }

    fn run(&mut self, task: &T) {
        self.0.call(&task.as_ref().all);
    }
}

/// One command a call.
pub struct Singly(Caller);

impl Singly {
    pub fn new() -> Self {
        Singly(Caller::new(1))
    }
}

impl<T: AsRef<Calls>> Program<T> for Singly {
    fn prepare(&mut self, task: &T) {
        self.0.take_up(task.as_ref());
    }

    fn run(&mut self, task: &T) {
        for command in &task.as_ref().commands {
            self.0.call(command);
        }
    }
}
