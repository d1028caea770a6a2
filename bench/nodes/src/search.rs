//! The proved search in plain Rust (crate tree_search), over the same bytes.

use crate::row::{Corner, Edge, Leg, Row, Vertex};
use service::bytes::{Entry, LEVELS, ROOT, node_at, number};

/// The ids of nodes, in reading order.
pub type Nodes = Vec<usize>;

pub struct Search<'t> {
    table: &'t [u8],
    leg: Leg,
    pub row: Row,
    /// Every node that the search went into.
    pub read: Nodes,
}

pub fn count(table: &[u8], node: usize) -> usize {
    number(table, node_at(node))
}

/// The height and the id of the root.
pub fn root(table: &[u8]) -> (usize, usize) {
    (number(table, LEVELS) - 1, number(table, ROOT))
}

impl<'t> Search<'t> {
    /// Of a table that holds a site.
    pub fn run(table: &'t [u8], leg: Leg) -> Self {
        let mut search = Search {
            table,
            leg,
            row: Row::new(leg),
            read: Vec::new(),
        };
        let (height, root) = root(table);
        search.node(height, root, None);
        search
    }

    /// The entry nearest to S and E together first, then the others round. What the edge looked
    /// at last shuts out is skipped with no look at the list.
    fn node(&mut self, height: usize, node: usize, mut edge: Option<Edge>) {
        self.read.push(node);
        let all = count(self.table, node);
        let first = self.nearest(node, all);
        for i in (first..all).chain(0..first) {
            edge = self.entry(height, Entry::read(self.table, node, i), edge);
        }
    }

    fn entry(&mut self, height: usize, entry: Entry, known: Option<Edge>) -> Option<Edge> {
        let corner = Corner::of(self.leg, entry);
        let shut = |edge: Option<Edge>| edge.is_some_and(|edge| edge.shuts(corner));
        if shut(known) {
            return known;
        }
        let edge = self.row.edge(corner);
        if shut(edge) {
            return edge;
        }
        if height == 0 {
            self.row.insert(Vertex::of(self.leg, entry));
        } else {
            self.node(height - 1, usize::from(entry.reference), edge);
        }
        edge
    }

    /// The first of the entries with the least a + c.
    fn nearest(&self, node: usize, all: usize) -> usize {
        let reach = |i: &usize| {
            let corner = Corner::of(self.leg, Entry::read(self.table, node, *i));
            u64::from(corner.a) + u64::from(corner.c)
        };
        (0..all).min_by_key(reach).expect("a node has entries")
    }
}
