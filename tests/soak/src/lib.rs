//! Random years of changes against the second program, until the first difference.

pub mod counts;
mod year;

use counts::Counts;
use service::Service;
use std::panic::{AssertUnwindSafe, catch_unwind};
use year::Year;

/// Where a service answered otherwise than the second program, or left a broken table.
#[derive(Debug)]
pub struct Difference {
    /// The year alone comes from it.
    pub seed: u64,
    pub day: usize,
    /// The last that were drawn.
    pub commands: Vec<u8>,
}

/// Runs years, the first with this seed and each later one with the next, as long as it shall go
/// on; at least one.
pub fn soak<S: Service>(
    service: &S,
    first: u64,
    mut goes_on: impl FnMut(&Counts) -> bool,
) -> (Counts, Option<Difference>) {
    let mut counts = Counts::default();
    let mut seed = first;
    loop {
        let mut year = Year::new(seed);
        // A comparison that fails panics, and its message is printed then.
        match catch_unwind(AssertUnwindSafe(|| year.run(service))) {
            Ok(more) => counts.add(&more),
            Err(_) => {
                let (day, commands) = (year.day, year.commands);
                let difference = Difference {
                    seed,
                    day,
                    commands,
                };
                return (counts, Some(difference));
            }
        }
        if !goes_on(&counts) {
            return (counts, None);
        }
        seed = seed.wrapping_add(1);
    }
}
