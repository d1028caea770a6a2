//! The proved service.

use crate::{Answer, Service};
use binding::call;

pub struct Proved;

impl Service for Proved {
    fn lay_out(&self, table: &mut [u8]) -> u32 {
        call::lay_out(table)
    }

    fn batch(
        &self,
        table: &mut [u8],
        work: &mut [u8],
        commands: &[u8],
        report: &mut [u8],
    ) -> Answer {
        let answer = call::batch(table, work, commands, report);
        (answer.reason, answer.used, answer.written)
    }
}
