//! The proved rounding of a receiver's reading (crates/reading_probe), for tests.

unsafe extern "C" {
    // Safe: it takes a number and returns one, and is lent no byte.
    #[link_name = "probe_coordinate"]
    safe fn linked(bits: u32) -> u32;
}

/// What is returned for a reading that is not finite.
pub const NOT_FINITE: u32 = 65_536;

/// The coordinate of the reading with these bits, in steps from the grid's south-west corner; off the grid
/// that of step 32,767.
pub fn probe_coordinate(bits: u32) -> u32 {
    linked(bits)
}
