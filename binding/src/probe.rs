//! The proved building of a split list with no tree (crates/list_probe), for tests and benchmarks.

unsafe extern "C" {
    #[link_name = "probe_list"]
    fn linked(
        table: *const u8,
        table_len: usize,
        n: usize,
        s_east: u16,
        s_north: u16,
        e_east: u16,
        e_north: u16,
        work: *mut u8,
        work_len: usize,
        report: *mut u8,
        report_len: usize,
    ) -> usize;
}

/// Writes the record of the leg's list over the first n site records, and returns its length;
/// 0, and nothing written, where an argument is off or the report has no room.
pub fn probe_list(
    table: &[u8],
    n: usize,
    [s_east, s_north, e_east, e_north]: [u16; 4],
    work: &mut [u8],
    report: &mut [u8],
) -> usize {
    // SAFETY: each pointer goes with the length of its own slice, and no two slices overlap.
    unsafe {
        linked(
            table.as_ptr(),
            table.len(),
            n,
            s_east,
            s_north,
            e_east,
            e_north,
            work.as_mut_ptr(),
            work.len(),
            report.as_mut_ptr(),
            report.len(),
        )
    }
}
