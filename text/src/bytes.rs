//! Lines as command bytes, for the batch program; nothing is carried out.

use crate::desk::Desk;
use crate::line::Complaint;
use crate::script::{self, Item, Script};
use crate::status::{Failure, Met};
use std::io::Write;

pub fn write<W: Write, E: Write>(
    mut script: Script,
    desk: &mut Desk<W, E>,
) -> Result<Met, Failure> {
    let mut met = Met::default();
    while let Some(items) = script.next()? {
        for item in &items {
            if let Some((number, complaint)) = complaint(item) {
                met.bad_line = true;
                desk.complain(number, &complaint)?;
            }
        }
        let written = desk.out.write_all(&script::bytes(&items));
        written.map_err(Failure::writing)?;
        desk.rest(script.input.read)?;
        if desk.out.is_closed() {
            break;
        }
    }
    Ok(met)
}

/// Of a line that has no command bytes.
fn complaint(item: &Item) -> Option<(u64, Complaint)> {
    match item {
        Item::Command(..) => None,
        Item::Act(number, act) => Some((*number, Complaint::NoBytes(act.word()))),
        Item::Bad(number, complaint) => Some((*number, complaint.clone())),
    }
}
