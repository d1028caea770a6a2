//! The model's own test of a table (reasons 65 and 69): one walk from the root that stops at the
//! first fault, with the boxes made from the sites upwards; then the standing leg and its list.

use crate::bytes::{
    self, ENTRIES_LISTED, Entry, FEWEST_ENTRIES, FEWEST_IN_ROOT, FREE_NODES, HEADER_KEPT, LAYOUT,
    LAYOUT_NUMBER, LEG_FLAG, LEG_WORDS, LEVELS, MOST_ENTRIES, MOST_LEVELS, MOST_NODES, ROOT,
    SITES_HELD, TOUR, TOUR_FLAG, free_at, leg, listed, node_at, number, position, sites, word,
};
use crate::{BROKEN_STANDING, BROKEN_TABLE};
use reference::grid::{MOST_SITES, Site};
use reference::hull;

/// The reason to refuse the table; none if it is taken.
pub(super) fn refusal(table: &[u8]) -> Option<u32> {
    let whole = header(table) && records(table) && flagged(table) && toured(table) && tree(table);
    match whole {
        false => Some(BROKEN_TABLE),
        true => (!standing(table)).then_some(BROKEN_STANDING),
    }
}

fn header(table: &[u8]) -> bool {
    let counts = number(table, SITES_HELD) <= MOST_SITES
        && number(table, LEVELS) <= MOST_LEVELS
        && number(table, FREE_NODES) <= MOST_NODES;
    let layout = word(table, LAYOUT) == LAYOUT_NUMBER;
    counts && layout && table[HEADER_KEPT].iter().all(|byte| *byte == 0)
}

fn records(table: &[u8]) -> bool {
    let sites = sites(table);
    sites
        .iter()
        .all(|site| site.number > 0 && site.position.on_grid())
        && sites.is_sorted_by(|p, q| p.number < q.number)
        && bytes::records(table).all(|record| record.kept == 0)
}

/// There is a leg or none; where it lies does not matter here.
fn flagged(table: &[u8]) -> bool {
    match word(table, LEG_FLAG) {
        0 => LEG_WORDS.iter().all(|at| word(table, *at) == 0),
        flag => flag == 1,
    }
}

/// The leg is on the grid and the list its own, in a table whose sites can be read.
fn standing(table: &[u8]) -> bool {
    let length = number(table, ENTRIES_LISTED);
    match leg(table) {
        Some(leg) => {
            let on_grid = leg.s.on_grid() && leg.e.on_grid();
            let list = || hull::split_list(&leg, &sites(table));
            let listed = || list().iter().map(|entry| entry.site).eq(listed(table));
            on_grid && length <= MOST_SITES && listed()
        }
        None => length == 0,
    }
}

fn toured(table: &[u8]) -> bool {
    match (word(table, TOUR_FLAG), bytes::tour(table)) {
        (1, Some(tour)) => {
            let held = |number: u16| sites(table).iter().any(|site| site.number == number);
            tour.corner.on_grid() && tour.remembered.is_none_or(held)
        }
        (0, None) => table[TOUR].iter().all(|byte| *byte == 0),
        _ => false,
    }
}

fn tree(table: &[u8]) -> bool {
    let mut seen = Seen {
        table,
        nodes: [false; MOST_NODES],
        sites: Vec::new(),
    };
    let levels = number(table, LEVELS);
    let fewest = if levels == 1 { 1 } else { FEWEST_IN_ROOT };
    if levels > 0 && seen.area(number(table, ROOT), levels, fewest).is_none() {
        return false;
    }
    seen.sites.sort_by_key(|site| site.number);
    let mut free = (0..number(table, FREE_NODES)).map(|i| number(table, free_at(i)));
    free.all(|node| seen.takes(node))
        && seen.nodes == [true; MOST_NODES]
        && seen.sites == sites(table)
}

/// West, south, east and north.
type Area = [u16; 4];

struct Seen<'t> {
    table: &'t [u8],
    nodes: [bool; MOST_NODES],
    sites: Vec<Site>,
}

impl Seen<'_> {
    /// Marks a node; not if it is none or was marked before.
    fn takes(&mut self, node: usize) -> bool {
        let fresh = self.nodes.get(node) == Some(&false);
        if fresh {
            self.nodes[node] = true;
        }
        fresh
    }

    /// The smallest area around the sites under the node; none if a rule is broken there.
    fn area(&mut self, node: usize, height: usize, fewest: usize) -> Option<Area> {
        if !self.takes(node) {
            return None;
        }
        let count = number(self.table, node_at(node));
        if !(fewest..=MOST_ENTRIES).contains(&count) {
            return None;
        }
        let mut around = [u16::MAX, u16::MAX, 0, 0];
        for i in 0..count {
            let entry = Entry::read(self.table, node, i);
            let inner = self.inner(entry, height)?;
            if entry.kept != 0 || inner != entry.edges() {
                return None;
            }
            for side in 0..2 {
                around[side] = around[side].min(inner[side]);
                around[side + 2] = around[side + 2].max(inner[side + 2]);
            }
        }
        Some(around)
    }

    /// What the entry's box has to be.
    fn inner(&mut self, entry: Entry, height: usize) -> Option<Area> {
        if height > 1 {
            return self.area(usize::from(entry.reference), height - 1, FEWEST_ENTRIES);
        }
        self.sites.push(Site {
            number: entry.reference,
            position: position(entry.west, entry.south),
        });
        Some([entry.west, entry.south, entry.west, entry.south])
    }
}
