//! One year: a table of any size and shape, and calls of every kind on each of its days.

use crate::counts::Counts;
use reference::book::Book;
use reference::command::{begin, corner, stand};
use reference::grid::{Leg, MOST_SITES, WORK_LEN};
use reference::random::Random;
use service::Service;
use service::bytes::put_word;
use service::damage::{Outcomes, flipped, offer, regions};
use service::desk::{Desk, LONGEST_RECORD};
use service::draw::{Pool, broken_off};
use service::faults::{ELSEWHERE, STANDING};
use service::hearing::hear_alone;
use service::history::{Run, call, compare_with_fresh};
use service::shape::{self, Dealing};
use service::table::Rule;
use service::written_out::{Compared, Pair};

const DAYS: usize = 365;
const MOST_COMMANDS_A_CALL: usize = 20;
/// After so many days come fresh tables, one with a listener alone, one beside which the steps are
/// written out, and damaged ones.
const QUARTER: usize = 91;
const HEARD_A_QUARTER: usize = 20;
const WRITTEN_OUT_A_QUARTER: usize = 20;
const FLIPPED_A_QUARTER: usize = 10;
/// Once in so many days the commands are a tour's.
const TOUR_ONCE_IN: i64 = 6;

pub struct Year {
    random: Random,
    pub day: usize,
    pub commands: Vec<u8>,
}

impl Year {
    pub fn new(seed: u64) -> Self {
        Year {
            random: Random::new(seed),
            day: 0,
            commands: Vec::new(),
        }
    }

    /// Panics at the first difference.
    pub fn run<S: Service>(&mut self, service: &S) -> Counts {
        let pool = self.pool();
        let desk = self.desk(service, &pool);
        let mut run = Run { desk, pool };
        let mut counts = Counts {
            years: 1,
            ..Counts::default()
        };
        for day in 1..=DAYS {
            self.day = day;
            self.call(&mut run);
            if day % QUARTER == 0 {
                counts.fresh_lists += compare_with_fresh(&mut self.random, &mut run);
                let heard = hear_alone(service, &mut self.random, &run.pool, HEARD_A_QUARTER);
                counts.heard_alone.add(&heard);
                for _ in 0..FLIPPED_A_QUARTER {
                    counts.flipped.count(&self.flip(&run));
                }
                self.damage(&run, &mut counts.faulty);
                counts.written_out.add(&self.write_out(&run));
            }
        }
        counts.tally = run.desk.tally;
        counts
    }

    fn pool(&mut self) -> Pool {
        let random = &mut self.random;
        let numbers = match random.between(1, 4) {
            1 => 1 + random.index(12),
            2 => 13 + random.index(60),
            3 => 73 + random.index(MOST_SITES - 73),
            // More than a table holds.
            _ => MOST_SITES + 1 + random.index(MOST_SITES),
        };
        Pool::new(random, numbers)
    }

    /// Laid out and empty, or as full as can be with a tree of any legal shape.
    fn desk<'s, S: Service>(&mut self, service: &'s S, pool: &Pool) -> Desk<'s, S> {
        let random = &mut self.random;
        if random.once_in(3) {
            return Desk::lay_out(service);
        }
        let mut book = Book::new();
        book.records(&pool.additions(random));
        if random.once_in(2) {
            book.records(&[stand(pool.leg(random))]);
        }
        if random.once_in(2) {
            let Leg { s, e } = pool.leg(random);
            book.records(&[begin(s), corner(e)]);
        }
        let dealing = &mut match random.once_in(4) {
            true => Dealing::Tallest,
            false => Dealing::Any(random),
        };
        Desk::take_up(service, shape::table(&book, dealing))
    }

    fn call<S: Service>(&mut self, run: &mut Run<S>) {
        let commands = if self.random.once_in(TOUR_ONCE_IN) {
            run.pool.tour(&mut self.random)
        } else {
            let count = self.random.index(MOST_COMMANDS_A_CALL + 1);
            run.pool.commands(&mut self.random, count)
        };
        self.commands = broken_off(&mut self.random, commands);
        call(&mut self.random, &mut run.desk, &self.commands);
    }

    /// Goes on with a copy of the table, and beside it with one for which the steps are written out.
    fn write_out<S: Service>(&mut self, run: &Run<S>) -> Compared {
        let random = &mut self.random;
        let mut pair = Pair::of(run.desk.service(), run.desk.table.clone());
        for _ in 0..WRITTEN_OUT_A_QUARTER {
            let count = random.index(MOST_COMMANDS_A_CALL + 1);
            let commands = run.pool.finite_commands(random, count);
            self.commands = broken_off(random, commands);
            let room = random.pick(&[0, 1, 3, 13, 60, LONGEST_RECORD]);
            pair.send(&self.commands, WORK_LEN, &[room, LONGEST_RECORD]);
        }
        pair.compared
    }

    /// Offers the table with one bit flipped where a rule speaks; which rules were broken.
    fn flip<S: Service>(&mut self, run: &Run<S>) -> Vec<Rule> {
        let random = &mut self.random;
        let table = &run.desk.table;
        let regions = regions(table);
        let filled: Vec<_> = regions.iter().filter(|r| !r.bytes.is_empty()).collect();
        let bytes = &random.pick(&filled).bytes;
        let at = bytes.start + random.index(bytes.len());
        let damaged = flipped(table, at, random.index(8));
        self.commands = run.pool.commands(random, 3).concat();
        offer(run.desk.service(), &damaged, &self.commands)
    }

    /// Offers the table with each fault of the standing half, alone and beside one elsewhere.
    fn damage<S: Service>(&mut self, run: &Run<S>, outcomes: &mut Outcomes) {
        let random = &mut self.random;
        let table = &run.desk.table;
        for fault in STANDING {
            let Some(mut damaged) = fault.put(random, table) else {
                continue;
            };
            self.commands = run.pool.commands(random, 3).concat();
            outcomes.count(&offer(run.desk.service(), &damaged, &self.commands));
            let part = random.pick(&ELSEWHERE);
            let (at, value) = part.word(random, table);
            put_word(&mut damaged, at, value);
            outcomes.count(&offer(run.desk.service(), &damaged, &self.commands));
        }
    }
}
