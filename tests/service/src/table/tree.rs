//! The rules on the tree, read level by level from the root down.

use super::{Broken, Rule};
use crate::bytes::{
    Entry, FEWEST_ENTRIES, FEWEST_IN_ROOT, FREE_NODES, LEVELS, MOST_ENTRIES, MOST_LEVELS,
    MOST_NODES, ROOT, entries, free_at, node_at, number, position, word,
};
use reference::grid::Site;
use std::collections::BTreeMap;

/// What was met on the way down.
struct Walk {
    /// How often each node was met, in the tree and then on the stack.
    met: [usize; MOST_NODES],
    nodes: usize,
    leaf_entries: Vec<Entry>,
}

pub(super) fn rules(table: &[u8], sites: &[Site], broken: &mut Broken) {
    let mut walk = walk(table, broken);
    stack_rules(table, &mut walk, broken);
    leaf_rules(&walk.leaf_entries, sites, broken);
}

/// The number of nodes in a sound table's tree.
pub(super) fn nodes(table: &[u8]) -> usize {
    walk(table, &mut Broken::default()).nodes
}

fn walk(table: &[u8], broken: &mut Broken) -> Walk {
    let mut walk = Walk {
        met: [0; MOST_NODES],
        nodes: 0,
        leaf_entries: Vec::new(),
    };
    let levels = number(table, LEVELS);
    broken.unless(levels <= MOST_LEVELS, Rule::AtMostSixLevels);
    let mut row = vec![word(table, ROOT)];
    for level in 1..=levels.min(MOST_LEVELS) {
        let mut below = Vec::new();
        for id in row {
            let node = usize::from(id);
            broken.unless(node < MOST_NODES, Rule::NodeId);
            // A node that was met before is not read again, so that a ring ends.
            if node < MOST_NODES && walk.meets(node) {
                count_rules(table, node, level == 1, level == levels, broken);
                if level == levels {
                    walk.leaf_entries.extend(entries(table, node));
                } else {
                    box_rules(table, node, broken);
                    below.extend(entries(table, node).map(|entry| entry.reference));
                }
            }
        }
        row = below;
    }
    walk
}

impl Walk {
    /// Counts the node; whether this is the first time.
    fn meets(&mut self, node: usize) -> bool {
        self.nodes += 1;
        self.met[node] += 1;
        self.met[node] == 1
    }
}

fn stored_count(table: &[u8], node: usize) -> usize {
    number(table, node_at(node))
}

fn count_rules(table: &[u8], node: usize, is_root: bool, is_leaf: bool, broken: &mut Broken) {
    let count = stored_count(table, node);
    broken.unless(count <= MOST_ENTRIES, Rule::AtMostEightEntries);
    match (is_root, is_leaf) {
        (false, _) => broken.unless(count >= FEWEST_ENTRIES, Rule::AtLeastThreeEntries),
        (true, false) => broken.unless(count >= FEWEST_IN_ROOT, Rule::AtLeastTwoInRoot),
        (true, true) => broken.unless(count >= 1, Rule::AtLeastOneInRoot),
    }
    let kept = entries(table, node).all(|entry| entry.kept == 0);
    broken.unless(kept, Rule::EntryKeptZero);
}

/// Each box is the smallest around those one level below; so it is around the sites as well.
fn box_rules(table: &[u8], node: usize, broken: &mut Broken) {
    for entry in entries(table, node) {
        let child = usize::from(entry.reference);
        if child < MOST_NODES {
            let least = |edge: fn(Entry) -> u16| entries(table, child).map(edge).min();
            let most = |edge: fn(Entry) -> u16| entries(table, child).map(edge).max();
            let smallest = least(|e| e.west) == Some(entry.west)
                && least(|e| e.south) == Some(entry.south)
                && most(|e| e.east) == Some(entry.east)
                && most(|e| e.north) == Some(entry.north);
            broken.unless(smallest, Rule::SmallestBox);
        }
    }
}

fn stack_rules(table: &[u8], walk: &mut Walk, broken: &mut Broken) {
    let free = number(table, FREE_NODES);
    broken.unless(free + walk.nodes == MOST_NODES, Rule::FreeCount);
    for i in 0..free.min(MOST_NODES) {
        let node = number(table, free_at(i));
        broken.unless(node < MOST_NODES, Rule::NodeId);
        if node < MOST_NODES {
            walk.met[node] += 1;
        }
    }
    broken.unless(walk.met == [1; MOST_NODES], Rule::NodeOnce);
}

fn leaf_rules(leaf_entries: &[Entry], sites: &[Site], broken: &mut Broken) {
    let mut times = BTreeMap::new();
    for entry in leaf_entries {
        let is_point = entry.west == entry.east && entry.south == entry.north;
        broken.unless(is_point, Rule::LeafIsPoint);
        let site = (entry.reference, position(entry.west, entry.south));
        *times.entry(site).or_insert(0) += 1;
    }
    for site in sites {
        let found = times.remove(&(site.number, site.position));
        broken.unless(found == Some(1), Rule::SiteInOneLeafEntry);
    }
    broken.unless(times.is_empty(), Rule::NoOtherLeafEntry);
}
