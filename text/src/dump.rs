//! A table as lines that make it anew, in any table.
//!
//! Document 01: the lists follow from the held sites and the standing leg alone, so these are all
//! that has to be carried over; the tree's shape is not. A tour goes on from its last corner. No
//! command brings back the site that it remembers, so its next record is a whole list, which is as
//! right for whoever follows the tour.
//!
//! Where the standing list is not that of the standing leg, nor that of an earlier release, either may
//! be what is damaged. So the leg is no line then, which would have the service list a leg that
//! perhaps nobody asked for, but a comment that whoever knows the leg makes a line of.

use crate::command::Command;
use crate::desk::Desk;
use crate::earlier::renewed;
use crate::lists::RIGHT_FIRST;
use crate::service::BROKEN_STANDING;
use crate::status::{Failure, Met, unsound};
use crate::{check, store, table};
use binding::layout::{LAYOUT, is_earlier, word};
use std::ffi::OsStr;
use std::io::Write;

/// Of a tour that remembers a site.
const ANEW: &str = "has a tour under way: the lines begin it anew at its last corner, \
                    so its next list is a whole one";

/// Of a table whose standing leg or list is wrong, behind what is said of its sites.
const NO_LEG: &str = "the lines add them all and set no standing leg";

/// Of a table that the service takes or that an earlier release took, or of one whose sites can be
/// read though its standing leg or list is wrong.
pub fn dump<W: Write, E: Write>(
    file: &OsStr,
    table: Vec<u8>,
    desk: &mut Desk<W, E>,
) -> Result<Met, Failure> {
    let renewed = renewed(&table)?;
    let doubtful = match store::table_of(file, renewed.clone()) {
        Err(Failure::NoTable(_, BROKEN_STANDING)) => true,
        taken => taken.map(|_| false)?,
    };
    let name = file.display();
    if renewed != table {
        desk.console
            .say(format_args!("{name} {}", how_read(&table)));
    }
    if doubtful {
        let reason = unsound(&name, BROKEN_STANDING);
        desk.console.say(format_args!("{reason}; {NO_LEG}"));
    }
    let tour = table::tour(&renewed);
    if tour.is_some_and(|tour| tour.remembered.is_some()) {
        desk.console.say(format_args!("{name} {ANEW}"));
    }
    for site in table::sites(&renewed) {
        desk.say(Command::add(site))?;
    }
    if doubtful {
        desk.say(doubtful_leg(&renewed))?;
    } else if let Some(leg) = table::leg(&renewed) {
        desk.say(Command::Stand(leg))?;
    }
    // Behind the additions, which end a tour.
    if let Some(tour) = tour {
        desk.say(Command::Begin(tour.corner))?;
    }
    desk.flush()?;
    Ok(Met {
        unsound: doubtful,
        ..Met::default()
    })
}

/// Comments on the standing leg of a table whose list is not that leg's.
fn doubtful_leg(table: &[u8]) -> String {
    match table::leg(table) {
        None => "# The standing list was wrong: it had entries, but no standing leg is set.".into(),
        Some(leg) if check::is_readable(table) => format!(
            "# The standing list was wrong, so the leg may be. If this is the leg, take the # away:\n# {}",
            Command::Stand(leg)
        ),
        Some(leg) => format!("# The standing leg was off the grid: {leg}"),
    }
}

/// Of a table that is not read as one of this release. A fault in the leg of a later table can make
/// the list the earlier rule's, which nothing tells from a table of then.
fn how_read(table: &[u8]) -> String {
    if is_earlier(table) {
        format!("is of layout {}, and read as such", word(table, LAYOUT))
    } else {
        format!(
            "has a standing list of a release before {RIGHT_FIRST}, and is read as such; \
             if it is of a later one, its leg or list is damaged"
        )
    }
}
