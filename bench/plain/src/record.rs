//! Record 3D in plain Rust.

use crate::vertex::Vertex;
use reference::grid::LARGEST_DENOMINATOR;
use reference::record::{ENTRY_LEN, LISTED};

fn gcd(mut a: u64, mut b: u64) -> u64 {
    while b != 0 {
        (a, b) = (b, a % b);
    }
    a
}

const _: () = assert!(LARGEST_DENOMINATOR <= u32::MAX as u64);

fn start(p: Vertex, q: Vertex) -> (u32, u32) {
    let (rise, fall) = (u64::from(q.a - p.a), u64::from(p.c - q.c));
    let factor = gcd(rise, rise + fall);
    ((rise / factor) as u32, ((rise + fall) / factor) as u32)
}

/// Writes the record and returns its length; 0 without room.
pub fn put(count: usize, vertex: impl Fn(usize) -> Vertex, report: &mut [u8]) -> usize {
    let length = 3 + ENTRY_LEN * count;
    let Some(record) = report.get_mut(..length) else {
        return 0;
    };
    record[0] = LISTED;
    record[1..3].copy_from_slice(&(count as u16).to_le_bytes());
    for (i, entry) in record[3..].chunks_exact_mut(ENTRY_LEN).enumerate() {
        let q = vertex(i);
        let (numerator, denominator) = match i {
            0 => (0, 1),
            _ => start(vertex(i - 1), q),
        };
        entry[..2].copy_from_slice(&q.site.number.to_le_bytes());
        entry[2..6].copy_from_slice(&numerator.to_le_bytes());
        entry[6..].copy_from_slice(&denominator.to_le_bytes());
    }
    length
}

/// The same without the first vertex's entry.
pub fn put_but_first(count: usize, vertex: impl Fn(usize) -> Vertex, report: &mut [u8]) -> usize {
    let length = 3 + ENTRY_LEN * (count - 1);
    let Some(record) = report.get_mut(..length) else {
        return 0;
    };
    record[0] = LISTED;
    record[1..3].copy_from_slice(&((count - 1) as u16).to_le_bytes());
    for (i, entry) in record[3..].chunks_exact_mut(ENTRY_LEN).enumerate() {
        let q = vertex(i + 1);
        let (numerator, denominator) = start(vertex(i), q);
        entry[..2].copy_from_slice(&q.site.number.to_le_bytes());
        entry[2..6].copy_from_slice(&numerator.to_le_bytes());
        entry[6..].copy_from_slice(&denominator.to_le_bytes());
    }
    length
}
