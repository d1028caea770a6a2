//! A model of the service in plain Rust, so that the tests can be tried without the proved one:
//! the second program's book, read from the table's bytes and written anew where it changes.

mod admission;

use crate::bytes::{book, empty_table};
use crate::shape::{self, Dealing};
use crate::{Answer, Service};
use reference::book::{ALL_USED, WRONG_LENGTH};
use reference::grid::{TABLE_LEN, WORK_LEN};

pub struct Model;

impl Service for Model {
    fn lay_out(&self, table: &mut [u8]) -> u32 {
        if table.len() != TABLE_LEN {
            return WRONG_LENGTH.into();
        }
        table.copy_from_slice(&empty_table());
        ALL_USED.into()
    }

    fn batch(
        &self,
        table: &mut [u8],
        work: &mut [u8],
        commands: &[u8],
        report: &mut [u8],
    ) -> Answer {
        if table.len() != TABLE_LEN || work.len() != WORK_LEN {
            return (WRONG_LENGTH.into(), 0, 0);
        }
        work.fill(0);
        if let Some(reason) = admission::refusal(table) {
            return (reason, 0, 0);
        }
        let before = book(table);
        let mut book = before.clone();
        let reply = book.call(commands, work.len(), report.len());
        report[..reply.written].copy_from_slice(&reply.report);
        if (&book.lines, book.leg) != (&before.lines, before.leg) {
            table.copy_from_slice(&shape::table(&book, &mut Dealing::Even));
        }
        shape::write_tour(table, book.tour);
        (reply.reason.into(), reply.used, reply.written)
    }
}
