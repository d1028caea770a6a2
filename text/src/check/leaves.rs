//! The leaves: every held site in one entry, as a point, and no other entry.

use super::fault::Fault;
use super::tree::{Walk, name};
use binding::layout::{entry_at, record_at, records};
use std::collections::BTreeMap;

pub fn faults(table: &[u8], walk: &Walk) -> Vec<Fault> {
    let mut faults = Vec::new();
    let mut held = BTreeMap::new();
    for (k, record) in records(table).enumerate() {
        held.entry(record.number).or_insert((k, record, 0));
    }
    for (node, i, entry) in &walk.leaf_entries {
        let mut fault = |offset: usize, what: &str| {
            let at = entry_at(*node, *i) + offset;
            faults.push(Fault::at(table, at, name(*node, *i), what));
        };
        if entry.east != entry.west {
            fault(6, "a leaf's box is a point, but its east is not its west");
        }
        if entry.north != entry.south {
            fault(8, "a leaf's box is a point, but its north is not its south");
        }
        match held.get_mut(&entry.reference) {
            None => fault(0, "no such site is held"),
            Some((_, record, times)) => {
                *times += 1;
                if *times > 1 {
                    fault(0, "the site is in another leaf entry, too");
                }
                if entry.west != record.east {
                    fault(2, "not the easting of the site's record");
                }
                if entry.south != record.north {
                    fault(4, "not the northing of the site's record");
                }
            }
        }
    }
    for (k, _, _) in held.values().filter(|(_, _, times)| *times == 0) {
        let what = "the site is in no leaf entry";
        faults.push(Fault::at(
            table,
            record_at(*k),
            format!("site record {k}"),
            what,
        ));
    }
    faults
}
