//! The header's number of the layout and the bytes kept for later.

use super::fault::Fault;
use binding::layout::{LAYOUT, LAYOUT_NUMBER, header_kept, is_earlier, word};

pub fn faults(table: &[u8]) -> Vec<Fault> {
    let mut faults = Vec::new();
    let other = match word(table, LAYOUT) {
        LAYOUT_NUMBER => None,
        _ if is_earlier(table) => Some("the number of an earlier layout: --dump reads such"),
        _ => Some("the number of another layout: this release cannot read it"),
    };
    if let Some(what) = other {
        faults.push(Fault::at(table, LAYOUT, "header", what).belongs(LAYOUT_NUMBER));
    }
    for at in header_kept(table).step_by(2) {
        if word(table, at) != 0 {
            faults.push(Fault::at(table, at, "header", "kept for later").belongs(0u16));
        }
    }
    faults
}
