//! The standing leg and the numbers of its list. The flag, and the zeros without a leg, belong to the
//! layout (65); the leg's grid and the list, with its length, are tested behind all else (69).

use super::fault::{Fault, off_grid};
use crate::lists::Lists;
use crate::status::Failure;
use binding::layout::{
    ENTRIES_LISTED, LEG_FLAG, LEG_WORDS, far_edge, is_earlier, listed_at, number, word,
};

const WORDS: [&str; 4] = [
    "easting of S",
    "northing of S",
    "easting of E",
    "northing of E",
];

pub fn leg_faults(table: &[u8]) -> Vec<Fault> {
    let flag = word(table, LEG_FLAG);
    if flag > 1 {
        let what = "1 where a leg is set, else 0";
        return vec![Fault::at(table, LEG_FLAG, "standing leg", what)];
    }
    let mut faults = Vec::new();
    for (at, name) in LEG_WORDS.into_iter().zip(WORDS) {
        let fault = |what: String| Fault::at(table, at, "standing leg", what);
        if flag == 0 && word(table, at) != 0 {
            faults.push(fault(format!("no leg is set, but its {name} is")).belongs(0u16));
        } else if word(table, at) > far_edge(table) {
            faults.push(fault(off_grid(table, name)).of_standing());
        }
    }
    faults
}

/// Sites and leg can be read. The tie rule is that of the layout.
pub fn list_faults(table: &[u8]) -> Result<Vec<Fault>, Failure> {
    let Lists { today, earlier } = Lists::of(table)?;
    let right = if is_earlier(table) { earlier } else { today };
    if number(table, ENTRIES_LISTED) != right.len() {
        let what = "the number of entries is not that of the leg's list";
        let fault = Fault::at(table, ENTRIES_LISTED, "standing list", what);
        return Ok(vec![fault.belongs(right.len()).of_standing()]);
    }
    let mut faults = Vec::new();
    for (i, site) in right.into_iter().enumerate() {
        if word(table, listed_at(i)) != site {
            let what = "not the site of the leg's list";
            let fault = Fault::at(
                table,
                listed_at(i),
                format!("standing list, entry {i}"),
                what,
            );
            faults.push(fault.belongs(site).of_standing());
        }
    }
    Ok(faults)
}
