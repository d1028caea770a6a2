//! The pool: each node is once in the tree or once on the stack of free nodes.

use super::fault::Fault;
use super::tree::Walk;
use binding::layout::{FREE_NODES, MOST_NODES, free_at, node_at, number};

pub fn faults(table: &[u8], walk: &Walk) -> Vec<Fault> {
    let mut faults = Vec::new();
    let (free, mut met) = (number(table, FREE_NODES), walk.met);
    if free + walk.nodes != MOST_NODES {
        let what = "with the nodes of the tree there must be 264";
        let fault = Fault::at(table, FREE_NODES, "tree, free nodes", what);
        faults.push(fault.belongs(MOST_NODES.saturating_sub(walk.nodes)));
    }
    for i in 0..free.min(MOST_NODES) {
        let node = number(table, free_at(i));
        let mut fault = |what: &str| {
            faults.push(Fault::at(
                table,
                free_at(i),
                format!("stack, place {i}"),
                what,
            ));
        };
        match met.get_mut(node) {
            None => fault("no node has this id, ids are 0 to 263"),
            Some(times) => {
                *times += 1;
                if *times > 1 && walk.met[node] > 0 {
                    fault("the node is in the tree, so it is not free");
                } else if *times > 1 {
                    fault("the node is on the stack twice");
                }
            }
        }
    }
    for node in (0..MOST_NODES).filter(|node| met[*node] == 0) {
        let what = "neither in the tree nor on the stack";
        faults.push(Fault::at(
            table,
            node_at(node),
            format!("node {node}"),
            what,
        ));
    }
    faults
}
