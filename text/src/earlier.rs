//! Tables of earlier releases. In layouts 0 and 1 all stands where it stands now, but coordinates
//! are counted from the corner of a smaller grid; before 0.9.0 the standing list had the lowest
//! number of sites that tie; and before 0.10.0 there were no tours.

use crate::check;
use crate::lists::{Lists, stands};
use crate::service::Service;
use crate::status::Failure;
use binding::layout::{
    EARLIER_HALF_WIDTH, HALF_WIDTH, LAYOUT, LAYOUT_NUMBER, LEG_FLAG, LEG_WORDS, MOST_ENTRIES,
    MOST_NODES, MOST_SITES, SITES_HELD, TOUR, entry_at, is_earlier, listed_at, number, put_word,
    record_at, word,
};

/// The same sites, leg and tree as this release has them, for a table of an earlier one. It is sound
/// exactly where the table is sound now or was in its release: one without a list of then is left.
pub fn renewed(table: &[u8]) -> Result<Vec<u8>, Failure> {
    let mut renewed = table.to_vec();
    if !check::is_readable(table) || table[TOUR].iter().any(|byte| *byte != 0) {
        return Ok(renewed);
    }
    let Lists { today, earlier } = Lists::of(table)?;
    if !stands(table, &earlier) {
        return Ok(renewed);
    }
    for (i, site) in today.into_iter().enumerate() {
        put_word(&mut renewed, listed_at(i), site);
    }
    if is_earlier(table) {
        count_from_corner(&mut renewed);
    }
    Ok(renewed)
}

/// Whether this release refuses the table, and an earlier one took it.
pub fn is_carried_over(table: &[u8]) -> Result<bool, Failure> {
    let renewed = renewed(table)?;
    Ok(renewed != table && Service::take_up(renewed).is_ok())
}

/// From the corner of this layout's grid.
fn count_from_corner(table: &mut [u8]) {
    // A coordinate in the tree that is no site's is no site's then: adding is one to one.
    for at in positions(table).into_iter().chain(boxes()) {
        let counted = word(table, at).wrapping_add(HALF_WIDTH - EARLIER_HALF_WIDTH);
        put_word(table, at, counted);
    }
    put_word(table, LAYOUT, LAYOUT_NUMBER);
}

/// Where the coordinates of the held sites and of the standing leg stand.
fn positions(table: &[u8]) -> Vec<usize> {
    let held = number(table, SITES_HELD).min(MOST_SITES);
    let sites = (0..held).flat_map(|k| [2, 4].map(|offset| record_at(k) + offset));
    let leg = LEG_WORDS.into_iter().filter(|_| word(table, LEG_FLAG) == 1);
    sites.chain(leg).collect()
}

/// Where those of the tree may stand; nobody reads the others.
fn boxes() -> impl Iterator<Item = usize> {
    let entries = (0..MOST_NODES).flat_map(|node| (0..MOST_ENTRIES).map(move |i| (node, i)));
    entries.flat_map(|(node, i)| [2, 4, 6, 8].map(|offset| entry_at(node, i) + offset))
}
