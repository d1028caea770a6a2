//! The proved building of a split list with no tree, and the bytes that it reads.

pub use binding::probe::probe_list;
use reference::grid::{HALF_WIDTH, Leg, Site};

/// Number, easting and northing, and two bytes that are not read.
pub const SITE_LEN: usize = 8;
/// The work buffer has to have a row of 512 places.
pub const WORK_NEEDED: usize = 1_024;

/// The largest coordinate, counted from the grid's south-west corner.
pub const FAR_EDGE: u16 = 2 * HALF_WIDTH as u16;

/// Counted from the grid's south-west corner.
fn steps(coordinate: i64) -> u16 {
    u16::try_from(coordinate + HALF_WIDTH).expect("on the grid")
}

/// The four coordinates of a call.
pub fn leg_words(leg: &Leg) -> [u16; 4] {
    [leg.s.east, leg.s.north, leg.e.east, leg.e.north].map(steps)
}

pub fn site_record(site: &Site) -> [u8; SITE_LEN] {
    let words = [
        site.number,
        steps(site.position.east),
        steps(site.position.north),
    ];
    let mut record = [0; SITE_LEN];
    for (bytes, word) in record.chunks_exact_mut(2).zip(words) {
        bytes.copy_from_slice(&word.to_le_bytes());
    }
    record
}

/// The site records, their numbers rising.
pub fn table(sites: &[Site]) -> Vec<u8> {
    let mut sites = sites.to_vec();
    sites.sort_by_key(|site| site.number);
    sites.iter().flat_map(site_record).collect()
}
