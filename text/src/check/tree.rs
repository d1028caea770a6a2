//! The tree, read level by level from the root down: ids, numbers of entries, kept words, and the
//! boxes. No node is read twice, so that any bytes have an end.

use super::boxes;
use super::fault::Fault;
use binding::layout::{
    Entry, FEWEST_ENTRIES, FEWEST_IN_ROOT, LEVELS, MOST_ENTRIES, MOST_LEVELS, MOST_NODES, ROOT,
    entries, entry_at, node_at, number,
};

/// What was met on the way down.
pub struct Walk {
    /// How often each node was met.
    pub met: [usize; MOST_NODES],
    /// All times that a node was met.
    pub nodes: usize,
    /// Each with its node and place in it.
    pub leaf_entries: Vec<(usize, usize, Entry)>,
    pub faults: Vec<Fault>,
}

/// A node's id, where that stands, and whose it is.
struct Link {
    node: usize,
    at: usize,
    place: String,
}

pub fn walk(table: &[u8]) -> Walk {
    let mut walk = Walk {
        met: [0; MOST_NODES],
        nodes: 0,
        leaf_entries: Vec::new(),
        faults: Vec::new(),
    };
    let levels = number(table, LEVELS);
    if levels > MOST_LEVELS {
        let what = "a tree has at most 6 levels";
        walk.faults.push(Fault::at(table, LEVELS, "tree", what));
    }
    let mut row = vec![Link {
        node: number(table, ROOT),
        at: ROOT,
        place: "tree, root".into(),
    }];
    for level in 1..=levels.min(MOST_LEVELS) {
        let met = row.into_iter().filter(|link| walk.meets(table, link));
        let nodes: Vec<usize> = met.map(|link| link.node).collect();
        let mut below = Vec::new();
        for node in nodes {
            let fewest = match (level, levels) {
                (1, 1) => 1,
                (1, _) => FEWEST_IN_ROOT,
                _ => FEWEST_ENTRIES,
            };
            walk.entries(table, node, fewest);
            if level == levels {
                let leaf = entries(table, node).enumerate();
                walk.leaf_entries
                    .extend(leaf.map(|(i, entry)| (node, i, entry)));
            } else {
                walk.faults.extend(boxes::faults(table, node));
                below.extend(children(table, node));
            }
        }
        row = below;
    }
    walk
}

fn children(table: &[u8], node: usize) -> impl Iterator<Item = Link> + '_ {
    let link = move |(i, entry): (usize, Entry)| Link {
        node: usize::from(entry.reference),
        at: entry_at(node, i),
        place: name(node, i),
    };
    entries(table, node).enumerate().map(link)
}

/// As messages name an entry.
pub fn name(node: usize, i: usize) -> String {
    format!("node {node}, entry {i}")
}

impl Walk {
    /// Counts the node; whether there is one and this is the first time.
    fn meets(&mut self, table: &[u8], link: &Link) -> bool {
        let fault = |what: &str| Fault::at(table, link.at, &link.place, what);
        if link.node >= MOST_NODES {
            self.faults
                .push(fault("no node has this id, ids are 0 to 263"));
            return false;
        }
        self.nodes += 1;
        self.met[link.node] += 1;
        if self.met[link.node] > 1 {
            self.faults.push(fault("the node was met before"));
        }
        self.met[link.node] == 1
    }

    fn entries(&mut self, table: &[u8], node: usize, fewest: usize) {
        let count = number(table, node_at(node));
        if count > MOST_ENTRIES {
            let what = "a node has at most 8 entries";
            let fault = Fault::at(table, node_at(node), format!("node {node}"), what);
            self.faults.push(fault);
        } else if count < fewest {
            let what = format!("too few entries, here at least {fewest}");
            let fault = Fault::at(table, node_at(node), format!("node {node}"), what);
            self.faults.push(fault);
        }
        for (i, entry) in entries(table, node).enumerate() {
            if entry.kept != 0 {
                let at = entry_at(node, i) + 10;
                let fault = Fault::at(table, at, name(node, i), "kept for later");
                self.faults.push(fault.belongs(0u16));
            }
        }
    }
}
