//! Tables that nobody vouches for: what the checker says of them, the service has to say.

use crate::bytes::{
    EARLIER_HALF_WIDTH, ENTRIES_LISTED, ENTRY_LEN, FREE_NODES, HALF_WIDTH, LAYOUT, LEG_FLAG,
    LEG_WORDS, LEVELS, MOST_NODES, RECORD_LEN, ROOT, SITE_ARRAY, SITES_HELD, STACK, STANDING_LIST,
    TOUR, entry_at, free_at, leg, listed, listed_at, node_at, number, put_word, record_at, sites,
    word,
};
use crate::desk::{Desk, Lent};
use crate::table::{Rule, meaning, reason};
use crate::{BROKEN_STANDING, Service};
use reference::book::WRONG_LENGTH;
use reference::grid::WORK_LEN;
use reference::split::TieRule;
use reference::ties::first;
use std::ops::Range;

/// Sends the commands to a service with this table. Returns the broken rules, for which 65 or 69
/// must come, as `reason` says; without any, the answer must be that of the book in the table.
pub fn offer(service: &impl Service, table: &[u8], commands: &[u8]) -> Vec<Rule> {
    match meaning(table) {
        Err(broken) => {
            assert_refused(service, table, commands, &broken);
            broken
        }
        Ok(_) => {
            Desk::take_up(service, table.to_vec()).serve(commands);
            vec![]
        }
    }
}

/// Tables that were offered, by what came of them.
#[derive(Clone, Copy, Debug, Default, PartialEq, Eq)]
pub struct Outcomes {
    pub with_65: usize,
    pub with_69: usize,
    pub taken: usize,
}

impl Outcomes {
    /// Counts a table that breaks these rules.
    pub fn count(&mut self, broken: &[Rule]) {
        *match reason(broken) {
            None => &mut self.taken,
            Some(BROKEN_STANDING) => &mut self.with_69,
            Some(_) => &mut self.with_65,
        } += 1;
    }

    pub fn refused(&self) -> usize {
        self.with_65 + self.with_69
    }

    pub fn add(&mut self, other: &Outcomes) {
        self.with_65 += other.with_65;
        self.with_69 += other.with_69;
        self.taken += other.taken;
    }
}

fn assert_refused(service: &impl Service, table: &[u8], commands: &[u8], broken: &[Rule]) {
    let mut after = table.to_vec();
    let mut lent = Lent::new(commands.len(), WORK_LEN, 3 * commands.len());
    let answer = lent.batch(service, &mut after, commands);
    let due = reason(broken).expect("a rule is broken");
    assert_eq!(answer, (due, 0, 0), "{due} is due for {broken:?}");
    lent.assert_after(&answer, &[]);
    assert!(after == table, "{due} leaves the table: {broken:?}");
}

/// A work buffer of wrong length comes before the table's contents.
pub fn assert_wrong_length_first(service: &impl Service, table: &[u8], work_len: usize) {
    let mut after = table.to_vec();
    let mut lent = Lent::new(work_len, work_len, 10);
    let answer = lent.batch(service, &mut after, &[0x50]);
    assert_eq!(
        answer,
        (u32::from(WRONG_LENGTH), 0, 0),
        "reason, used and written with {work_len} bytes of work"
    );
    lent.assert_after(&answer, &[]);
    assert!(after == table, "64 leaves the table");
}

/// A part of the table's bytes that a rule speaks of.
#[derive(Clone, Debug)]
pub struct Region {
    pub name: &'static str,
    pub bytes: Range<usize>,
}

/// All bytes of a sound table that a rule speaks of.
pub fn regions(table: &[u8]) -> Vec<Region> {
    let held = SITE_ARRAY + RECORD_LEN * number(table, SITES_HELD);
    let listed = STANDING_LIST + 2 * number(table, ENTRIES_LISTED);
    let free = free_at(number(table, FREE_NODES));
    let mut regions = vec![
        ("header", 0..SITE_ARRAY),
        ("site array", SITE_ARRAY..held),
        ("standing list", STANDING_LIST..listed),
        ("tree header", LEVELS..STACK),
        ("stack", STACK..free),
    ];
    for node in nodes(table) {
        let (count, entries) = (node_at(node), node_at(node) + 2);
        let end = entries + ENTRY_LEN * number(table, count);
        regions.push(("node count", count..entries));
        regions.push(("node entries", entries..end));
    }
    let region = |(name, bytes)| Region { name, bytes };
    regions.into_iter().map(region).collect()
}

/// The nodes of a sound table's tree: those not on the stack.
pub fn nodes(table: &[u8]) -> Vec<usize> {
    let free: Vec<usize> = (0..number(table, FREE_NODES))
        .map(|i| number(table, free_at(i)))
        .collect();
    (0..MOST_NODES)
        .filter(|node| !free.contains(node))
        .collect()
}

/// The nodes above the leaves of a sound table's tree.
pub fn inner_nodes(table: &[u8]) -> Vec<usize> {
    let mut inner = Vec::new();
    let mut row = vec![number(table, ROOT)];
    for _ in 1..number(table, LEVELS) {
        inner.extend(&row);
        let children = |node| {
            let entries = 0..number(table, node_at(node));
            entries.map(move |i| number(table, entry_at(node, i)))
        };
        row = row.into_iter().flat_map(children).collect();
    }
    inner
}

/// The table with one bit flipped.
pub fn flipped(table: &[u8], at: usize, bit: usize) -> Vec<u8> {
    let mut damaged = table.to_vec();
    damaged[at] ^= 1 << bit;
    damaged
}

/// The sound table with the standing list that this tie rule gives.
pub fn stored_by(rule: TieRule, table: &[u8]) -> Vec<u8> {
    let mut other = table.to_vec();
    let (sites, listed) = (sites(table), listed(table));
    for (i, number) in listed.into_iter().enumerate() {
        let leg = leg(table).expect("a list is that of a leg");
        put_word(&mut other, listed_at(i), first(&leg, &sites, number, rule));
    }
    other
}

/// The table in an earlier layout: coordinates are counted from the corner of a smaller grid, and
/// there are no tours. A position that this does not have is off it there, too.
pub fn aged(table: &[u8], layout: u16) -> Vec<u8> {
    let sites = 0..number(table, SITES_HELD);
    let sites = sites.flat_map(|k| [2, 4].map(|offset| record_at(k) + offset));
    let leg = LEG_WORDS.into_iter().filter(|_| word(table, LEG_FLAG) == 1);
    let entries = |node| (0..number(table, node_at(node))).map(move |i| entry_at(node, i));
    let entries = nodes(table).into_iter().flat_map(entries);
    let edges = entries.flat_map(|at| [2, 4, 6, 8].map(|offset| at + offset));
    let mut aged = table.to_vec();
    for at in sites.chain(leg).chain(edges) {
        let counted = word(table, at).wrapping_sub(HALF_WIDTH - EARLIER_HALF_WIDTH);
        put_word(&mut aged, at, counted);
    }
    aged[TOUR].fill(0);
    put_word(&mut aged, LAYOUT, layout);
    aged
}
