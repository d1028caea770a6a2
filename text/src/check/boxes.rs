//! The boxes above the leaves: each the smallest that holds what lies under it.

use super::fault::Fault;
use super::tree::name;
use binding::layout::{MOST_NODES, entries, entry_at};

/// West, south, east and north: the offset in an entry, and whether it is a lower edge.
const EDGES: [(usize, bool); 4] = [(2, true), (4, true), (6, false), (8, false)];

/// Of a node above the leaves.
pub fn faults(table: &[u8], node: usize) -> Vec<Fault> {
    let mut faults = Vec::new();
    for (i, entry) in entries(table, node).enumerate() {
        let child = usize::from(entry.reference);
        if child >= MOST_NODES {
            continue;
        }
        for (edge, (offset, lower)) in EDGES.into_iter().enumerate() {
            let under = entries(table, child).map(|entry| entry.edges()[edge]);
            let Some(right) = (if lower { under.min() } else { under.max() }) else {
                continue;
            };
            let found = entry.edges()[edge];
            if found != right {
                let wider = if lower { found < right } else { found > right };
                let how = if wider { "wider" } else { "narrower" };
                let what = format!("box is {how} than what lies under it");
                let at = entry_at(node, i) + offset;
                faults.push(Fault::at(table, at, name(node, i), what).belongs(right));
            }
        }
    }
    faults
}
