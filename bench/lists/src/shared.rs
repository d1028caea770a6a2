//! What the two programs in plain Rust have in common: the checks and the sites.

use lists::{FAR_EDGE, SITE_LEN};
use plain::vertex::{Leg, Site, Vertex};

const MOST_SITES: usize = 512;

fn word(bytes: &[u8], at: usize) -> u16 {
    u16::from_le_bytes([bytes[at], bytes[at + 1]])
}

pub fn vertex(table: &[u8], leg: Leg, site: usize) -> Vertex {
    let record = &table[SITE_LEN * site..SITE_LEN * (site + 1)];
    let site = Site {
        number: word(record, 0),
        east: word(record, 2),
        north: word(record, 4),
    };
    Vertex::of(leg, site)
}

/// The checks that the proved call makes.
pub fn ready(table: &[u8], n: usize, leg: Leg) -> bool {
    if n > MOST_SITES || table.len() < SITE_LEN * n || leg.iter().any(|x| *x > FAR_EDGE) {
        return false;
    }
    let mut last = 0;
    table[..SITE_LEN * n].chunks_exact(SITE_LEN).all(|record| {
        let rises = word(record, 0) > last;
        last = word(record, 0);
        rises && word(record, 2) <= FAR_EDGE && word(record, 4) <= FAR_EDGE
    })
}
