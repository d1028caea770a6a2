//! A few years on each service, and that a difference is found and comes again with its seed.

use reference::command::{ADD_READINGS, MOVE_READINGS, PRINT};
use service::wrong::Wrong;
use service::{Model, Service, on_each_service};
use soak::soak;

const YEARS: usize = 5;
const SEED: u64 = 2_026;

on_each_service!(some_years_show_no_difference);

fn some_years_show_no_difference(service: &impl Service) {
    let (counts, difference) = soak(service, SEED, |counts| counts.years < YEARS);
    println!("{counts}");
    assert!(difference.is_none(), "{difference:?}");
    assert_eq!(counts.years, YEARS);
    let tally = &counts.tally;
    assert!(tally.calls >= YEARS * 365 && tally.lists >= YEARS * 365);
    assert!(tally.sided >= YEARS, "ties along the whole leg");
    assert!(counts.fresh_lists >= 4 * 6 * YEARS && counts.flipped.refused() >= YEARS);
    // A fault of the standing half gives 69, and 65 beside one elsewhere.
    let faulty = &counts.faulty;
    assert!(faulty.with_69 >= 4 * 2 * YEARS && faulty.with_65 == faulty.with_69);
    assert_eq!(faulty.taken, 0);
    let tours = &tally.tours;
    assert!(tours.legs >= 365 * YEARS && tours.most_legs >= 10, "tours");
    assert!(tours.left_out >= 200 * YEARS && tours.nothing >= 50 * YEARS);
    assert!(tours.nothing_again >= 10 * YEARS && tours.across_calls >= 10 * YEARS);
    assert!(tours.changed_at_corner >= 5 * YEARS);
    let by_readings = [ADD_READINGS, MOVE_READINGS].map(|mark| tally.by_command[&mark]);
    assert!(by_readings.iter().all(|times| *times >= 100 * YEARS));
    assert!(tally.by_refusal[11] >= 10 * YEARS);
    let written_out = &counts.written_out;
    assert!(written_out.calls() >= 4 * 20 * YEARS && written_out.accepted >= 10 * YEARS);
    assert!(written_out.by_reason.keys().eq(&[0, 66, 67, 68]));
    let alone = &counts.heard_alone;
    assert!(alone.legs >= 4 * 30 * YEARS && alone.left_out >= 4 * 15 * YEARS);
}

/// The model, but for a wrong byte in a report that begins with a printed list of three or more.
const CARELESS: Wrong = Wrong(|table, work, commands, report| {
    let answer = Model.batch(table, work, commands, report);
    if commands.first() == Some(&PRINT) && answer.2 > 23 {
        report[23] ^= 1;
    }
    answer
});

#[test]
fn a_difference_is_found_and_comes_again() {
    let (_, found) = soak(&CARELESS, SEED, |_| true);
    let found = found.expect("a difference");
    let (counts, again) = soak(&CARELESS, found.seed, |_| false);
    let again = again.expect("the same difference");
    assert_eq!(counts.years, 0);
    assert_eq!((found.seed, found.day), (again.seed, again.day));
    assert_eq!(found.commands, again.commands);
}
