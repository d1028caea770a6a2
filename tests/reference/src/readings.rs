//! Readings to try (document 02, C-15): patterns with their steps, and commands from an empty table on,
//! each with its record.

use crate::command::{add, add_readings, begin, corner, list, move_readings, print, remove, stand};
use crate::grid::{HALF_WIDTH, Leg, Position, Site};
use crate::reading::{Reading, Readings};
use crate::record::Record::{Accepted, Refused};
use crate::tours::{Step, Try, at, listed};

pub const ZERO: Reading = Reading(0x0000_0000);
pub const NEGATIVE_ZERO: Reading = Reading(0x8000_0000);
/// The largest below 1,200,050 m, and that itself.
pub const LAST_ON_GRID: Reading = Reading(0x4992_7D8F);
pub const FIRST_OFF_GRID: Reading = Reading(0x4992_7D90);
pub const LARGEST: Reading = Reading(0x7F7F_FFFF);
pub const INFINITY: Reading = Reading(0x7F80_0000);
pub const NEGATIVE_INFINITY: Reading = Reading(0xFF80_0000);
/// Quiet and signalling, of either sign, with the least and the most that a fraction holds.
pub const NO_NUMBER: [Reading; 8] = [
    Reading(0x7FC0_0000),
    Reading(0xFFC0_0000),
    Reading(0x7F80_0001),
    Reading(0xFF80_0001),
    Reading(0x7FBF_FFFF),
    Reading(0xFFBF_FFFF),
    Reading(0x7FFF_FFFF),
    Reading(0xFFFF_FFFF),
];

/// Zeros, denormals, both ends of the grid, far off it, and not finite.
pub const ODD: [Reading; 32] = [
    ZERO,
    NEGATIVE_ZERO,
    Reading(0x0000_0001),
    Reading(0x8000_0001),
    Reading(0x007F_FFFF),
    Reading(0x807F_FFFF),
    Reading(0x0080_0000),
    Reading(0x8080_0000),
    LAST_ON_GRID,
    Reading(0xC992_7D8F),
    FIRST_OFF_GRID,
    Reading(0xC992_7D90),
    // 100 × 2^16 m, and with 32 and 64 for 16: their steps have no low digits that are not 0.
    Reading(0x4AC8_0000),
    Reading(0xCAC8_0000),
    Reading(0x52C8_0000),
    Reading(0xD2C8_0000),
    Reading(0x62C8_0000),
    Reading(0xE2C8_0000),
    // 2^63 m.
    Reading(0x5F00_0000),
    Reading(0xDF00_0000),
    LARGEST,
    Reading(0xFF7F_FFFF),
    INFINITY,
    NEGATIVE_INFINITY,
    NO_NUMBER[0],
    NO_NUMBER[1],
    NO_NUMBER[2],
    NO_NUMBER[3],
    NO_NUMBER[4],
    NO_NUMBER[5],
    NO_NUMBER[6],
    NO_NUMBER[7],
];

/// Patterns with their metres and their steps. What is not finite has no step.
pub const STEPS: [(u32, &str, Option<i128>); 48] = [
    (0x0000_0000, "0", Some(0)),
    (0x8000_0000, "-0", Some(0)),
    (0x0000_0001, "the smallest denormal", Some(0)),
    (0x8000_0001, "its opposite", Some(0)),
    (0x007F_FFFF, "the largest denormal", Some(0)),
    (0x807F_FFFF, "its opposite", Some(0)),
    (0x0080_0000, "the smallest normal", Some(0)),
    (0x3F80_0000, "1", Some(0)),
    (0x4247_FFFF, "49.999996, the largest below 50", Some(0)),
    (0xC247_FFFF, "-49.999996", Some(0)),
    (0x4248_0000, "50", Some(1)),
    (0xC248_0000, "-50", Some(-1)),
    (0x4248_0001, "50.000004", Some(1)),
    (0x42C7_FFFF, "99.99999", Some(1)),
    (0xC2C7_FFFF, "-99.99999", Some(-1)),
    (0x42C8_0000, "100", Some(1)),
    (0x4315_FFFF, "149.99998", Some(1)),
    (0x4316_0000, "150", Some(2)),
    (0xC315_FFFF, "-149.99998", Some(-1)),
    (0xC316_0000, "-150", Some(-2)),
    (0x4379_FFFF, "249.99998", Some(2)),
    (0x437A_0000, "250", Some(3)),
    (0xC379_FFFF, "-249.99998", Some(-2)),
    (0xC37A_0000, "-250", Some(-3)),
    (0x449A_5000, "1,234.5", Some(12)),
    (0x4992_7C00, "1,200,000", Some(12_000)),
    (0x4992_7D8F, "1,200,049.875", Some(12_000)),
    (0xC992_7D8F, "-1,200,049.875", Some(-12_000)),
    (0x4992_7D90, "1,200,050", Some(12_001)),
    (0xC992_7D90, "-1,200,050", Some(-12_001)),
    (0x4B7F_FFFF, "16,777,215", Some(167_772)),
    (0x4B80_0000, "16,777,216", Some(167_772)),
    (0x4B80_0011, "16,777,250", Some(167_773)),
    (0xCB80_0011, "-16,777,250", Some(-167_773)),
    (0x4AC8_0000, "100 × 2^16", Some(1 << 16)),
    (0x52C8_0000, "100 × 2^32", Some(1 << 32)),
    (0xE248_0000, "-100 × 2^63", Some(-(1 << 63))),
    (0xE2C8_0000, "-100 × 2^64", Some(-(1 << 64))),
    (
        0x7F7F_FFFF,
        "the largest",
        Some(3_402_823_466_385_288_598_117_041_834_845_169_254),
    ),
    (
        0xFF7F_FFFF,
        "the smallest",
        Some(-3_402_823_466_385_288_598_117_041_834_845_169_254),
    ),
    (0x7F80_0000, "infinity", None),
    (0xFF80_0000, "its opposite", None),
    (0x7F80_0001, "signalling, least fraction", None),
    (0xFF80_0001, "of the other sign", None),
    (0x7FBF_FFFF, "signalling, largest fraction", None),
    (0x7FC0_0000, "quiet, least fraction", None),
    (0xFFC0_0000, "of the other sign", None),
    (0xFFFF_FFFF, "quiet, largest fraction", None),
];

/// Of whole metres.
pub fn metres(east: i64, north: i64) -> Readings {
    Readings::new(Reading::of_metres(east), Reading::of_metres(north))
}

const LEG: Leg = Leg::new((0, 0), (10, 0));

fn of(what: &'static str, steps: Vec<Step>) -> Try {
    Try { what, steps }
}

pub fn all() -> Vec<Try> {
    let tries = [
        each_pattern(),
        rounded(),
        refusals(),
        at_the_edges(),
        in_a_tour(),
    ];
    tries.into_iter().flatten().collect()
}

/// The site goes to each step that is on the grid, on either axis.
fn each_pattern() -> Vec<Try> {
    let mut steps = vec![(add(Site::new(1, 5, 5)), Accepted)];
    for (pattern, _, step) in STEPS {
        let record = match step {
            Some(step) if step.abs() <= HALF_WIDTH.into() => Accepted,
            Some(_) => Refused(2),
            None => Refused(11),
        };
        let reading = Reading(pattern);
        for readings in [Readings::new(reading, ZERO), Readings::new(ZERO, reading)] {
            steps.push((move_readings(1, readings), record.clone()));
        }
    }
    vec![of("each pattern", steps)]
}

/// Document 01's first leg, 1 from 0/1 and 2 from 37/100, by readings on either side of a half.
fn rounded() -> Vec<Try> {
    let both = listed(&[(1, 0, 1), (2, 37, 100)]);
    let far = |number| (add(Site::new(number, 4_000, 4_000)), Accepted);
    let beside = |east: Reading, by: i64, north: Reading| Readings::new(east.beside(by), north);
    let (half, other) = (metres(150, 250), metres(650, 50));
    let below = metres(249, 349);
    vec![
        of(
            "halves up, by 61 and by 6D",
            vec![
                far(1),
                (move_readings(1, half), Accepted),
                (add_readings(2, other), Accepted),
                (list(LEG), both.clone()),
            ],
        ),
        of(
            "one pattern below a half",
            vec![
                (
                    add_readings(1, beside(Reading::of_metres(250), -1, below.north)),
                    Accepted,
                ),
                (add_readings(2, metres(700, 149)), Accepted),
                (stand(LEG), Accepted),
                (print(), both.clone()),
                // A half up on either axis, and the list is another.
                (move_readings(1, metres(250, 349)), Accepted),
                (print(), listed(&[(1, 0, 1), (2, 2, 5)])),
                (move_readings(1, below), Accepted),
                (print(), both),
            ],
        ),
        of(
            "both zeros are step 0, and so is a denormal",
            vec![
                (
                    add_readings(1, Readings::new(NEGATIVE_ZERO, ZERO)),
                    Accepted,
                ),
                (
                    add_readings(2, Readings::new(Reading(0x8000_0001), NEGATIVE_ZERO)),
                    Accepted,
                ),
                (add(Site::new(3, 0, 0)), Accepted),
                (list(LEG), listed(&[(1, 0, 1)])),
                (remove(1), Accepted),
                (list(LEG), listed(&[(2, 0, 1)])),
                (remove(2), Accepted),
                (list(LEG), listed(&[(3, 0, 1)])),
            ],
        ),
    ]
}

/// "11: a reading is not finite; tested after 1 and before 2"
fn refusals() -> Vec<Try> {
    let off = FIRST_OFF_GRID;
    let no_number = NO_NUMBER[2];
    let here = metres(0, 0);
    let mut steps = vec![(add(Site::new(1, 0, 0)), Accepted)];
    for not_finite in [INFINITY, NEGATIVE_INFINITY, NO_NUMBER[0], no_number] {
        for other in [ZERO, LARGEST, not_finite, INFINITY] {
            for readings in [
                Readings::new(not_finite, other),
                Readings::new(other, not_finite),
            ] {
                steps.extend([
                    (add_readings(0, readings), Refused(1)),
                    (move_readings(0, readings), Refused(1)),
                    (add_readings(1, readings), Refused(11)),
                    (add_readings(2, readings), Refused(11)),
                    (move_readings(1, readings), Refused(11)),
                    (move_readings(2, readings), Refused(11)),
                ]);
            }
        }
    }
    for readings in [Readings::new(off, ZERO), Readings::new(ZERO, off)] {
        steps.extend([
            (add_readings(0, readings), Refused(1)),
            (move_readings(0, readings), Refused(1)),
            (add_readings(1, readings), Refused(2)),
            (add_readings(2, readings), Refused(2)),
            (move_readings(1, readings), Refused(2)),
            (move_readings(2, readings), Refused(2)),
        ]);
    }
    steps.extend([
        (add_readings(0, here), Refused(1)),
        (move_readings(0, here), Refused(1)),
        (add_readings(1, here), Refused(3)),
        (move_readings(2, here), Refused(4)),
        (list(LEG), listed(&[(1, 0, 1)])),
    ]);
    vec![of("1 before 11 before 2 before 3 or 4", steps)]
}

/// "The grid limit is tested on the step."
fn at_the_edges() -> Vec<Try> {
    let mut steps = vec![(add(Site::new(1, 0, 0)), Accepted)];
    for (reading, record) in [
        (LAST_ON_GRID, Accepted),
        (FIRST_OFF_GRID, Refused(2)),
        (LARGEST, Refused(2)),
        (Reading(0x4AC8_0000), Refused(2)),
        (Reading(0x52C8_0000), Refused(2)),
        (Reading(0x62C8_0000), Refused(2)),
    ] {
        for reading in [reading, reading.opposite()] {
            for readings in [Readings::new(reading, ZERO), Readings::new(ZERO, reading)] {
                steps.push((move_readings(1, readings), record.clone()));
                steps.push((add_readings(2, readings), record.clone()));
                if record == Accepted {
                    steps.push((remove(2), Accepted));
                }
            }
        }
    }
    let corner = Readings::new(LAST_ON_GRID, LAST_ON_GRID.opposite());
    let leg = Leg::new((HALF_WIDTH, -HALF_WIDTH), (-HALF_WIDTH, HALF_WIDTH));
    let across = Position::new(-HALF_WIDTH, HALF_WIDTH);
    vec![
        of("on the grid up to 1,200,050 m, and not there", steps),
        of(
            "in two corners of the grid",
            vec![
                (add_readings(1, corner), Accepted),
                (
                    add(Site {
                        number: 2,
                        position: across,
                    }),
                    Accepted,
                ),
                (list(leg), listed(&[(1, 0, 1), (2, 1, 2)])),
            ],
        ),
    ]
}

/// 61 and 6D end a tour as 41 and 4D do; refused ones leave it.
fn in_a_tour() -> Vec<Try> {
    let off = Readings::new(FIRST_OFF_GRID, ZERO);
    let not_finite = Readings::new(ZERO, INFINITY);
    let begun = vec![
        (add_readings(1, metres(249, 300)), Accepted),
        (add_readings(2, metres(650, 50)), Accepted),
        (begin(at(0, 0)), Accepted),
        (corner(at(10, 0)), listed(&[(1, 0, 1), (2, 37, 100)])),
    ];
    let ended = |what, change: Vec<u8>| {
        let after = vec![(change, Accepted), (corner(at(0, 0)), Refused(8))];
        of(what, [begun.clone(), after].concat())
    };
    let refused = [
        (add_readings(0, metres(0, 0)), Refused(1)),
        (add_readings(3, not_finite), Refused(11)),
        (add_readings(3, off), Refused(2)),
        (add_readings(1, metres(0, 0)), Refused(3)),
        (move_readings(0, not_finite), Refused(1)),
        (move_readings(2, not_finite), Refused(11)),
        (move_readings(2, off), Refused(2)),
        (move_readings(3, metres(0, 0)), Refused(4)),
    ];
    let mut goes_on = begun.clone();
    for step in &refused {
        goes_on.push(step.clone());
        goes_on.push((corner(at(10, 0)), listed(&[])));
    }
    goes_on.extend(refused);
    goes_on.push((corner(at(0, 0)), listed(&[(1, 63, 100)])));
    vec![
        ended("61 in a tour", add_readings(3, metres(400_000, 0))),
        ended("6D in a tour", move_readings(2, metres(0, 0))),
        ended(
            "6D in a tour, to where the site stands",
            move_readings(2, metres(749, 149)),
        ),
        of("refused readings in a tour", goes_on),
    ]
}
