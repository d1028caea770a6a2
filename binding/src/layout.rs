//! Where everything stands in a table: docs/LAYOUT.md, each of its numbers once.
//!
//! Readers take a table of the right length with any contents, and say what its words say.

mod entry;
mod record;

pub use entry::Entry;
pub use record::Record;
use std::ops::Range;

pub const TABLE_LEN: usize = 32_768;
/// Not a length of the layout's: what include/stops.h says.
pub const WORK_LEN: usize = of_header(env!("STOPS_WORK_BYTES"));
pub const MOST_SITES: usize = 512;

/// The layout's own number: a table with another one is of another layout.
pub const LAYOUT_NUMBER: u16 = 2;

/// The header's words.
pub const SITES_HELD: usize = 0;
pub const LEG_FLAG: usize = 2;
/// Easting and northing of S, then of E.
pub const LEG_WORDS: [usize; 4] = [4, 6, 8, 10];
pub const ENTRIES_LISTED: usize = 12;
pub const LAYOUT: usize = 14;
/// The tour's words; all 0 without one, and in every table of an earlier release.
pub const TOUR: Range<usize> = 16..24;
pub const TOUR_FLAG: usize = 16;
/// Easting and northing of its last corner.
pub const CORNER_WORDS: [usize; 2] = [18, 20];
/// The number of the site that ended the list of its previous leg; 0 before its first leg.
pub const REMEMBERED: usize = 22;
pub const HEADER_KEPT: Range<usize> = 24..64;

pub const SITE_ARRAY: usize = 64;
pub const RECORD_LEN: usize = 8;
pub const STANDING_LIST: usize = 4_160;

/// The tree header's words, and the stack of free nodes.
pub const LEVELS: usize = 5_184;
pub const ROOT: usize = 5_186;
pub const FREE_NODES: usize = 5_188;
pub const STACK: usize = 5_190;
pub const STACK_END: usize = 5_718;

pub const NODE_POOL: usize = 6_896;
pub const NODE_LEN: usize = 98;
pub const ENTRY_LEN: usize = 12;

pub const MOST_NODES: usize = 264;
pub const MOST_ENTRIES: usize = 8;
pub const FEWEST_ENTRIES: usize = 3;
pub const FEWEST_IN_ROOT: usize = 2;
pub const MOST_LEVELS: usize = 6;

/// Coordinates of commands run from `-HALF_WIDTH` to `HALF_WIDTH`: what include/stops.h says.
pub const HALF_WIDTH: u16 = to_half_width(of_header(env!("STOPS_HALF_WIDTH")));
/// A coordinate at the grid's far edge, counted from the south-west corner.
pub const FAR_EDGE: u16 = 2 * HALF_WIDTH;
/// The half-width of layouts 0 and 1, whose coordinates are counted from that grid's corner.
pub const EARLIER_HALF_WIDTH: u16 = 8_000;

const fn of_header(digits: &str) -> usize {
    match usize::from_str_radix(digits, 10) {
        Ok(number) => number,
        Err(_) => panic!("the header defines a plain number"),
    }
}

/// So that twice as much has 15 bits.
const fn to_half_width(number: usize) -> u16 {
    assert!(number < 1 << 14);
    number as u16
}

pub fn word(table: &[u8], at: usize) -> u16 {
    u16::from_le_bytes([table[at], table[at + 1]])
}

/// The word as a count or an id.
pub fn number(table: &[u8], at: usize) -> usize {
    usize::from(word(table, at))
}

pub fn put_word(table: &mut [u8], at: usize, word: u16) {
    table[at..at + 2].copy_from_slice(&word.to_le_bytes());
}

pub fn put_number(table: &mut [u8], at: usize, number: usize) {
    put_word(table, at, to_word(number));
}

pub fn to_word(number: usize) -> u16 {
    u16::try_from(number).expect("counts and ids of a table have 16 bits")
}

pub fn record_at(k: usize) -> usize {
    SITE_ARRAY + RECORD_LEN * k
}

pub fn listed_at(i: usize) -> usize {
    STANDING_LIST + 2 * i
}

pub fn free_at(i: usize) -> usize {
    STACK + 2 * i
}

pub fn node_at(node: usize) -> usize {
    NODE_POOL + NODE_LEN * node
}

pub fn entry_at(node: usize, i: usize) -> usize {
    node_at(node) + 2 + ENTRY_LEN * i
}

/// The held records; a count that is too large reads no further.
pub fn records(table: &[u8]) -> impl Iterator<Item = Record> + '_ {
    let held = number(table, SITES_HELD).min(MOST_SITES);
    (0..held).map(|k| Record::read(table, k))
}

/// Easting and northing of S and of E, in steps from the south-west corner; none without a leg.
pub fn leg_words(table: &[u8]) -> Option<[u16; 4]> {
    (word(table, LEG_FLAG) == 1).then(|| LEG_WORDS.map(|at| word(table, at)))
}

/// Easting and northing of the tour's last corner, in steps from the south-west corner, and the
/// remembered number; none without a tour.
pub fn tour_words(table: &[u8]) -> Option<([u16; 2], u16)> {
    let words = || {
        (
            CORNER_WORDS.map(|at| word(table, at)),
            word(table, REMEMBERED),
        )
    };
    (word(table, TOUR_FLAG) == 1).then(words)
}

/// The header's bytes that are 0 in the table's layout: the earlier ones know no tour.
pub fn header_kept(table: &[u8]) -> Range<usize> {
    if is_earlier(table) {
        TOUR.start..HEADER_KEPT.end
    } else {
        HEADER_KEPT
    }
}

/// The site numbers of the standing list; a count that is too large reads no further.
pub fn listed(table: &[u8]) -> Vec<u16> {
    let entries = number(table, ENTRIES_LISTED).min(MOST_SITES);
    (0..entries).map(|i| word(table, listed_at(i))).collect()
}

/// The node's entries; a count that is too large reads no further.
pub fn entries(table: &[u8], node: usize) -> impl Iterator<Item = Entry> + '_ {
    let count = number(table, node_at(node)).min(MOST_ENTRIES);
    (0..count).map(move |i| Entry::read(table, node, i))
}

/// Whether the table's number is that of an earlier layout.
pub fn is_earlier(table: &[u8]) -> bool {
    word(table, LAYOUT) < LAYOUT_NUMBER
}

/// The half-width of the grid from whose corner the table's coordinates are counted.
pub fn half_width(table: &[u8]) -> u16 {
    if is_earlier(table) {
        EARLIER_HALF_WIDTH
    } else {
        HALF_WIDTH
    }
}

/// The largest coordinate that the table may have.
pub fn far_edge(table: &[u8]) -> u16 {
    2 * half_width(table)
}

/// The bytes that laying out writes.
pub fn empty_table() -> Vec<u8> {
    let mut table = vec![0; TABLE_LEN];
    put_word(&mut table, LAYOUT, LAYOUT_NUMBER);
    put_number(&mut table, FREE_NODES, MOST_NODES);
    for k in 0..MOST_NODES {
        put_number(&mut table, free_at(k), k);
    }
    table
}

// The regions follow each other as the layout's first table says.
const _: () = {
    assert!(HEADER_KEPT.start == TOUR.end && TOUR.end == REMEMBERED + 2);
    assert!(SITE_ARRAY == HEADER_KEPT.end);
    assert!(STANDING_LIST == SITE_ARRAY + RECORD_LEN * MOST_SITES);
    assert!(LEVELS == STANDING_LIST + 2 * MOST_SITES);
    assert!(STACK_END == STACK + 2 * MOST_NODES);
    assert!(NODE_LEN == 2 + ENTRY_LEN * MOST_ENTRIES);
    assert!(NODE_POOL + NODE_LEN * MOST_NODES == TABLE_LEN);
};
