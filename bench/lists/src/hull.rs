//! A sort and a convex hull in plain Rust, over the bytes that the proved call reads.

use crate::shared::{ready, vertex};
use plain::vertex::{Leg, Vertex};
use plain::{hull, record};

/// Puts the listed vertices first, and returns how many they are.
pub fn listed(table: &[u8], n: usize, leg: Leg, hull: &mut Vec<Vertex>) -> usize {
    hull::listed(leg, (0..n).map(|site| vertex(table, leg, site)), hull)
}

pub fn list(table: &[u8], n: usize, leg: Leg, hull: &mut Vec<Vertex>, report: &mut [u8]) -> usize {
    if !ready(table, n, leg) {
        return 0;
    }
    let k = listed(table, n, leg, hull);
    record::put(k, |i| hull[i], report)
}
