//! The two calls of include/stops.h.

/// As C has them, for pointers that are no slice's.
pub mod raw {
    unsafe extern "C" {
        pub fn stops_lay_out(table: *mut u8, table_len: usize) -> u32;

        pub fn stops_batch(
            table: *mut u8,
            table_len: usize,
            work: *mut u8,
            work_len: usize,
            commands: *const u8,
            commands_len: usize,
            report: *mut u8,
            report_len: usize,
            used: *mut usize,
            written: *mut usize,
        ) -> u32;
    }
}

#[derive(Clone, Copy, Debug, PartialEq, Eq)]
pub struct Answer {
    pub reason: u32,
    pub used: usize,
    pub written: usize,
}

/// Returns the reason.
pub fn lay_out(table: &mut [u8]) -> u32 {
    // SAFETY: pointer and length are those of one slice.
    unsafe { raw::stops_lay_out(table.as_mut_ptr(), table.len()) }
}

pub fn batch(table: &mut [u8], work: &mut [u8], commands: &[u8], report: &mut [u8]) -> Answer {
    // Counts that no call returns, so that one that is not written shows.
    let (mut used, mut written) = (usize::MAX, usize::MAX);
    // SAFETY: each pointer goes with the length of its own slice, and no two slices overlap.
    let reason = unsafe {
        raw::stops_batch(
            table.as_mut_ptr(),
            table.len(),
            work.as_mut_ptr(),
            work.len(),
            commands.as_ptr(),
            commands.len(),
            report.as_mut_ptr(),
            report.len(),
            &mut used,
            &mut written,
        )
    };
    Answer {
        reason,
        used,
        written,
    }
}
