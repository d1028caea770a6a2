//! The site array: numbers rise, positions are on the grid, kept words are 0.

use super::fault::{Fault, off_grid};
use binding::layout::{MOST_SITES, Record, SITES_HELD, far_edge, number, record_at, records};

pub fn faults(table: &[u8]) -> Vec<Fault> {
    let mut faults = Vec::new();
    if number(table, SITES_HELD) > MOST_SITES {
        let what = "a table holds at most 512 sites";
        faults.push(Fault::at(table, SITES_HELD, "header", what));
    }
    let mut last = 0;
    for (k, record) in records(table).enumerate() {
        let mut fault = |offset: usize, what: String| {
            let place = format!("site record {k}");
            faults.push(Fault::at(table, record_at(k) + offset, place, what));
        };
        if record.number == 0 {
            fault(0, "0 is no site's number".into());
        } else if record.number <= last {
            fault(0, "the number is not above the one before".into());
        }
        if record.east > far_edge(table) {
            fault(2, off_grid(table, "easting"));
        }
        if record.north > far_edge(table) {
            fault(4, off_grid(table, "northing"));
        }
        if record.kept != 0 {
            fault(6, "kept for later: it is 0".into());
        }
        last = last.max(record.number);
    }
    faults
}

pub fn on_grid(table: &[u8], record: &Record) -> bool {
    record.east <= far_edge(table) && record.north <= far_edge(table)
}
