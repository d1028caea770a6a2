//! A scan, a sort and a convex hull in plain Rust: the lower left hull of the squared distances
//! from S and from E.

use crate::vertex::{Leg, Vertex, turns, wins};

/// Puts the listed of these vertices first in `hull`, and returns how many they are.
pub fn listed(leg: Leg, vertices: impl Iterator<Item = Vertex>, hull: &mut Vec<Vertex>) -> usize {
    hull.clear();
    hull.extend(vertices);
    hull.sort_unstable_by_key(|vertex| vertex.key());
    // The hull grows at the front of the sorted vertices.
    let mut k = 0;
    for i in 0..hull.len() {
        let next = hull[i];
        if k > 0 && next.c >= hull[k - 1].c {
            // Those that tie along the whole leg follow each other, in any order.
            let last = hull[k - 1];
            if next.c == last.c && next.a == last.a && wins(leg, next.site, last.site) {
                hull[k - 1] = next;
            }
            continue;
        }
        while k >= 2 && !turns(hull[k - 2], hull[k - 1], next) {
            k -= 1;
        }
        hull[k] = next;
        k += 1;
    }
    k
}
