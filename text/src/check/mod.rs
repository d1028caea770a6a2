//! A fitter's look at a table: which rules of docs/LAYOUT.md are broken, where, and what stands
//! there. It reads the bytes itself; only the right standing list is asked of the service, which
//! gets the sites in a table of its own.

mod boxes;
mod fault;
mod header;
mod leaves;
mod pool;
mod sites;
mod standing;
#[cfg(test)]
mod tests;
mod tour;
mod tree;

use crate::command::Command;
use crate::desk::Desk;
use crate::grid::{Site, grouped};
use crate::lists::RIGHT_FIRST;
use crate::service::{BROKEN_STANDING, Service};
use crate::status::{Failure, Met};
use crate::store::table_of;
use crate::{earlier, show, table};
use binding::layout::{LAYOUT, LAYOUT_NUMBER, TABLE_LEN, word};
use fault::Fault;
use std::io::Write;

/// So many broken rules are told; one fault often breaks many.
const MOST_TOLD: usize = 20;

/// Of a table in which nothing but the standing leg or list is wrong.
const READABLE: &str = "the sites, the tour and the tree keep their rules, so all sites can be \
                        read, whichever of leg and list is damaged: --dump writes the lines that \
                        lay the table out anew";

/// Every rule that the bytes break, in the order of the bytes' regions; none for a sound table.
pub fn faults(table: &[u8]) -> Result<Vec<Fault>, Failure> {
    if table.len() != TABLE_LEN {
        let (long, whole) = (grouped(table.len()), grouped(TABLE_LEN));
        let what = format!("{long} bytes long, a table has {whole}");
        return Ok(vec![Fault::length(what)]);
    }
    let mut faults = header::faults(table);
    faults.extend(tour::faults(table));
    let unreadable = unreadable(table);
    // A list is that of sites and a leg that can be read.
    faults.extend(if unreadable.is_empty() {
        standing::list_faults(table)?
    } else {
        unreadable
    });
    let walk = tree::walk(table);
    faults.extend(pool::faults(table, &walk));
    faults.extend(leaves::faults(table, &walk));
    faults.extend(walk.faults);
    Ok(faults)
}

/// The number that the service refuses a table with these faults with; none for a sound one. It
/// tests in the order of the numbers.
fn reason(faults: &[Fault]) -> Option<u32> {
    faults.iter().map(|fault| fault.reason).min()
}

/// Whether sites and leg can be read.
pub fn is_readable(table: &[u8]) -> bool {
    table.len() == TABLE_LEN && unreadable(table).is_empty()
}

/// What speaks against sites and leg.
fn unreadable(table: &[u8]) -> Vec<Fault> {
    let mut faults = sites::faults(table);
    faults.extend(standing::leg_faults(table));
    faults
}

/// Tells what a table holds, or what is wrong with it and which sites can still be read.
pub fn tell<W: Write, E: Write>(bytes: &[u8], desk: &mut Desk<W, E>) -> Result<Met, Failure> {
    let faults = faults(bytes)?;
    let Some(reason) = reason(&faults) else {
        let mut service = table_of("the table".as_ref(), bytes.to_vec())?;
        desk.say("sound: no rule is broken")?;
        show::counts(&mut service, desk)?;
        desk.flush()?;
        return Ok(Met::default());
    };
    desk.say(format_args!(
        "broken: the service refuses it with reason {reason}"
    ))?;
    for fault in faults.iter().take(MOST_TOLD) {
        desk.say(fault)?;
    }
    if faults.len() > MOST_TOLD {
        desk.say(format_args!("and {} more", faults.len() - MOST_TOLD))?;
    }
    if let Some(note) = earlier_list(bytes)? {
        desk.say(note)?;
    }
    if reason == BROKEN_STANDING {
        desk.say(READABLE)?;
    }
    let readable = readable(bytes);
    let of_layout = if is_unknown(bytes) {
        format!(", if they stand as in layout {LAYOUT_NUMBER}")
    } else {
        String::new()
    };
    desk.say(format_args!(
        "sites that can still be read{of_layout}: {}",
        readable.len()
    ))?;
    for site in readable {
        desk.say(Command::add(site))?;
    }
    desk.flush()?;
    Ok(Met {
        unsound: true,
        ..Met::default()
    })
}

/// What is said of a table of this layout whose list is right by the earlier rule alone.
fn earlier_list(bytes: &[u8]) -> Result<Option<String>, Failure> {
    let renewed = earlier::renewed(bytes)?;
    if renewed == bytes || word(bytes, LAYOUT) != LAYOUT_NUMBER {
        return Ok(None);
    }
    let dump = match Service::take_up(renewed) {
        Ok(_) => ": --dump carries the table over",
        Err(_) => "",
    };
    Ok(Some(format!(
        "the standing list is that of a release before {RIGHT_FIRST}{dump}"
    )))
}

/// Whether the bytes have the number of a layout that this release does not know.
fn is_unknown(bytes: &[u8]) -> bool {
    bytes.len() >= LAYOUT + 2 && word(bytes, LAYOUT) > LAYOUT_NUMBER
}

/// The records with a number and a position on the grid, each number once.
fn readable(bytes: &[u8]) -> Vec<Site> {
    let mut whole = bytes.to_vec();
    whole.resize(TABLE_LEN, 0);
    let mut sites: Vec<Site> = Vec::new();
    for (site, record) in table::sites(&whole)
        .into_iter()
        .zip(binding::layout::records(&whole))
    {
        let known = sites.iter().any(|other| other.number == site.number);
        if site.number > 0 && sites::on_grid(&whole, &record) && !known {
            sites.push(site);
        }
    }
    sites
}
