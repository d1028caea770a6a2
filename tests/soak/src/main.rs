//! `make soak MINUTES=n` runs the proved service for so long; `SEED=s` begins with that year.

use service::Proved;
use soak::counts::Counts;
use soak::{Difference, soak};
use std::process::ExitCode;
use std::time::{Duration, Instant, SystemTime, UNIX_EPOCH};

const BETWEEN_NEWS: Duration = Duration::from_secs(60);

/// A seed that no other run had.
fn seed_of_now() -> u64 {
    let since = SystemTime::now().duration_since(UNIX_EPOCH);
    since.map_or(0, |since| since.as_secs())
}

/// Minutes, and a seed.
fn arguments() -> Option<(f64, u64)> {
    let mut words = std::env::args().skip(1);
    let minutes = words.next()?.parse().ok().filter(|m| *m >= 0.0)?;
    let seed = match words.next() {
        Some(word) => word.parse().ok()?,
        None => seed_of_now(),
    };
    Some((minutes, seed))
}

fn run(minutes: f64, seed: u64) -> (Counts, Option<Difference>) {
    let began = Instant::now();
    let mut news = BETWEEN_NEWS;
    soak(&Proved, seed, |counts| {
        let gone = began.elapsed();
        if gone >= news {
            news += BETWEEN_NEWS;
            let (years, calls) = (counts.years, counts.tally.calls);
            println!("{} s: {years} years, {calls} calls", gone.as_secs());
        }
        gone.as_secs_f64() < 60.0 * minutes
    })
}

fn main() -> ExitCode {
    let Some((minutes, seed)) = arguments() else {
        eprintln!("usage: soak MINUTES [SEED]");
        return ExitCode::from(2);
    };
    println!("seed {seed}, {minutes} minutes");
    let (counts, difference) = run(minutes, seed);
    println!("{counts}");
    match difference {
        None => {
            println!("no difference");
            ExitCode::SUCCESS
        }
        Some(Difference {
            seed,
            day,
            commands,
        }) => {
            println!("DIFFERENCE on day {day} of the year with seed {seed}, see above");
            println!("last commands drawn: {commands:02X?}");
            println!("to run that year again: make soak MINUTES=0 SEED={seed}");
            ExitCode::FAILURE
        }
    }
}
