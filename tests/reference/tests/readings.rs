//! Positions from the receiver (document 02, C-15): the rounding by hand-computed cases and by its
//! definition, refusals, and the same run with the steps written out.

use reference::book::{ALL_USED, Book, CUT_COMMAND, NO_ROOM, UNKNOWN_COMMAND};
use reference::command::{
    ADD, ADD_READINGS, Command, MOVE, MOVE_READINGS, add, add_readings, move_readings, move_site,
    print,
};
use reference::grid::{HALF_WIDTH, Position, Site, WORK_LEN};
use reference::listener::{Fault, Listener};
use reference::random::{self, Random, reading, readings_of, refused_readings};
use reference::reading::{Reading, Readings, STEP_OFF_GRID};
use reference::readings::{
    self, FIRST_OFF_GRID, INFINITY, LARGEST, LAST_ON_GRID, NEGATIVE_ZERO, NO_NUMBER, ODD, STEPS,
    ZERO, metres,
};
use reference::record::Record::{self, Accepted, Refused};
use reference::tours::listed;
use reference::written_out::{length, written_out};
use std::collections::BTreeMap;

#[test]
fn steps_computed_by_hand() {
    for (pattern, what, step) in STEPS {
        assert_eq!(Reading(pattern).step(), step, "{what}");
        assert_eq!(Reading(pattern).is_finite(), step.is_some(), "{what}");
    }
}

/// The compiler's own patterns of the decimals that the hand-computed cases name.
#[test]
fn patterns_are_those_of_the_decimals() {
    let named = [
        (0x0000_0001, f32::from_bits(1)),
        (0x0080_0000, f32::MIN_POSITIVE),
        (0x4247_FFFF, 49.999996),
        (0x4248_0000, 50.0),
        (0xC248_0000, -50.0),
        (0x4248_0001, 50.000004),
        (0x42C7_FFFF, 99.99999),
        (0x4315_FFFF, 149.99998),
        (0x4316_0000, 150.0),
        (0x4379_FFFF, 249.99998),
        (0x437A_0000, 250.0),
        (0x449A_5000, 1_234.5),
        (0x4992_7C00, 1_200_000.0),
        (0x4992_7D8F, 1_200_049.875),
        (0x4992_7D90, 1_200_050.0),
        (0xC992_7D90, -1_200_050.0),
        (0x4B7F_FFFF, 16_777_215.0),
        (0x4B80_0011, 16_777_250.0),
        (0x4AC8_0000, 6_553_600.0),
        (0x52C8_0000, 429_496_729_600.0),
        (0x7F7F_FFFF, f32::MAX),
        (0x7F80_0000, f32::INFINITY),
    ];
    for (pattern, decimal) in named {
        assert_eq!(pattern, decimal.to_bits(), "{decimal}");
        assert!(STEPS.iter().any(|(known, ..)| *known == pattern));
    }
    assert!(NO_NUMBER.iter().all(|r| f32::from_bits(r.0).is_nan()));
}

#[test]
fn whole_metres_have_the_patterns_of_the_compiler() {
    let mut random = Random::new(501);
    let any = (0..20_000).map(|_| random.between(-(1 << 24), 1 << 24));
    for whole in any.chain(-2_000..=2_000).chain([1 << 24, -(1 << 24)]) {
        assert_eq!(Reading::of_metres(whole).0, (whole as f32).to_bits());
    }
}

#[test]
fn patterns_beside_each_other() {
    for (pattern, by, other) in [
        (0x4248_0000, 1, 0x4248_0001),
        (0x4248_0000, -1, 0x4247_FFFF),
        (0xC248_0000, 1, 0xC247_FFFF),
        (0xC248_0000, -1, 0xC248_0001),
        (0, 1, 1),
        (0, -1, 0x8000_0001),
        (0x8000_0000, 1, 1),
        (0x8000_0003, 5, 2),
        (2, -5, 0x8000_0003),
    ] {
        assert_eq!(Reading(pattern).beside(by), Reading(other), "{pattern:X}");
    }
}

/// Sizes as the digits and the power say, where the compiler's number has them exactly.
#[test]
fn digits_and_power_are_the_size() {
    for (pattern, digits, power) in [
        (0x0000_0000, 0, -149),
        (0x0000_0001, 1, -149),
        (0x807F_FFFF, 0x7F_FFFF, -149),
        (0x0080_0000, 0x80_0000, -149),
        (0x0100_0000, 0x80_0000, -148),
        (0x3F80_0000, 1 << 23, -23),
        (0xC248_0000, 50 << 18, -18),
        (0x4B00_0001, (1 << 23) + 1, 0),
        (0x7F7F_FFFF, (1 << 24) - 1, 104),
    ] {
        assert_eq!(Reading(pattern).size(), (digits, power), "{pattern:08X}");
    }
}

/// How far the size of a reading is from so many metres, against 50 m: both multiplied out, so that
/// they are whole. Below 2^-96 m all is nearest to step 0.
fn against_50_m(reading: Reading, metres: u128) -> std::cmp::Ordering {
    let (digits, power) = reading.size();
    if power < -96 {
        assert_eq!(metres, 0);
        return std::cmp::Ordering::Less;
    }
    let (size, metre) = match power {
        0.. => (digits << power, 1),
        _ => (digits, 1 << -power),
    };
    size.abs_diff(metres * metre).cmp(&(50 * metre))
}

/// "Each reading goes to the nearest step of 100 m, exact halves away from zero, so that it lies within
/// 50 m of the step exactly"
fn assert_nearest(reading: Reading) -> bool {
    let step = reading.step().expect("finite");
    let metres = 100 * step.unsigned_abs();
    let same_side = step == 0 || reading.is_negative() == (step < 0);
    assert!(same_side, "{reading:?} {step}");
    match against_50_m(reading, metres) {
        std::cmp::Ordering::Greater => panic!("{reading:?} is not within 50 m of step {step}"),
        std::cmp::Ordering::Less => false,
        std::cmp::Ordering::Equal => {
            // The other step that is as near is the one towards zero.
            let (digits, power) = reading.size();
            let size = digits << power.max(0) >> (-power).max(0);
            assert!(metres > size, "{reading:?} is a half and went to {step}");
            true
        }
    }
}

/// Every half and every step of the grid and a little beyond, with eight patterns on each side.
#[test]
fn the_definition_near_every_half_and_step() {
    let mut halves = 0;
    for half_steps in 0..=2 * HALF_WIDTH + 40 {
        for by in -8..=8 {
            let reading = Reading::of_metres(50 * half_steps).beside(by);
            halves += usize::from(assert_nearest(reading));
            halves += usize::from(assert_nearest(reading.opposite()));
        }
    }
    println!("exact halves: {halves}");
    assert_eq!(halves, 2 * (12_000 + 20));
}

/// Every exponent, with the ends of its fractions and many between.
#[test]
fn the_definition_at_every_exponent() {
    let mut random = Random::new(502);
    let (mut tested, mut halves) = (0, 0);
    for exponent in 0..255 {
        let ends = [0, 1, 2, 0x3F_FFFF, 0x40_0000, 0x7F_FFFE, 0x7F_FFFF];
        let any = (0..2_000).map(|_| u32::try_from(random.between(0, 0x7F_FFFF)).unwrap());
        for fraction in ends.into_iter().chain(any) {
            let reading = Reading(exponent << 23 | fraction);
            halves += usize::from(assert_nearest(reading));
            assert_nearest(reading.opposite());
            tested += 2;
        }
    }
    println!("{tested} patterns, exact halves among those of one sign: {halves}");
    assert_eq!(tested, 2 * 255 * 2_007);
    // Beyond the grid whole metres are far apart, and one in some hundred is a half.
    assert!(halves >= 50);
}

/// The step never falls where the reading rises, and rises at the halves alone.
#[test]
fn steps_rise_with_readings() {
    let first = Reading(0x4200_0000);
    let mut random = Random::new(503);
    for _ in 0..100_000 {
        let reading = first.beside(random.between(0, 0x0800_0000));
        let (step, next) = (reading.step().unwrap(), reading.beside(1).step().unwrap());
        assert!(step <= next);
        if step < next {
            assert!(assert_nearest(reading.beside(1)), "{reading:?}");
        }
    }
}

#[test]
fn the_grids_edge() {
    for (reading, coordinate) in [
        (LAST_ON_GRID, 12_000),
        (LAST_ON_GRID.opposite(), -12_000),
        (FIRST_OFF_GRID, STEP_OFF_GRID),
        (FIRST_OFF_GRID.opposite(), STEP_OFF_GRID),
        (LARGEST, 32_767),
        (LARGEST.opposite(), 32_767),
        // Its step is the least that 64 bits hold.
        (Reading(0xE248_0000), 32_767),
        (ZERO, 0),
        (NEGATIVE_ZERO, 0),
    ] {
        assert_eq!(reading.coordinate(), Some(coordinate));
    }
    assert_eq!(LAST_ON_GRID.beside(1), FIRST_OFF_GRID);
    assert_eq!(INFINITY.coordinate(), None);
    for reading in NO_NUMBER {
        assert_eq!(Readings::new(reading, ZERO).position(), None);
        assert_eq!(Readings::new(ZERO, reading).position(), None);
        assert!(!Readings::new(ZERO, reading).are_finite());
        assert!(!Readings::new(reading, INFINITY).are_finite());
    }
}

#[test]
fn commands_and_their_bytes() {
    let readings = Readings::new(Reading(0x449A_5000), Reading(0xC2C7_FFFF));
    let operands = [0x02, 0x01, 0x00, 0x50, 0x9A, 0x44, 0xFF, 0xFF, 0xC7, 0xC2];
    let addition = add_readings(0x0102, readings);
    let relocation = move_readings(0x0102, readings);
    assert_eq!(addition, [&[0x61], &operands[..]].concat());
    assert_eq!(relocation, [&[0x6D], &operands[..]].concat());
    let read = |bytes: &[u8]| Command::read(bytes);
    assert_eq!(
        read(&addition),
        Ok((Command::AddReadings(0x0102, readings), 11))
    );
    assert_eq!(
        read(&relocation),
        Ok((Command::MoveReadings(0x0102, readings), 11))
    );
    let site = Site::new(0x0102, 12, -1);
    assert_eq!(read(&addition).unwrap().0.site(), Some(site));
}

#[test]
fn readings_to_try() {
    for tried in readings::all() {
        let (commands, records): (Vec<_>, Vec<_>) = tried.steps.into_iter().unzip();
        assert_eq!(Book::new().records(&commands), records, "{}", tried.what);
    }
}

/// An accepted command whose readings are not finite is no record of its own; where they are, the site
/// stands at the steps.
#[test]
fn a_listener_hears_where_a_site_stands() {
    let (east, north) = (Reading::of_metres(150), Reading::of_metres(-250));
    let mut listener = Listener::new();
    let addition = Command::AddReadings(1, Readings::new(east, north));
    assert_eq!(listener.hear(&addition, &Accepted), Ok(()));
    let begin = Command::Begin(Position::new(2, -3));
    assert_eq!(listener.hear(&begin, &Accepted), Ok(()));
    let leg = Command::Corner(Position::new(2, -3));
    let here = listed(&[(1, 0, 1)]);
    assert_eq!(listener.hear(&leg, &here), Ok(()));
    assert_eq!(listener.hear(&addition, &Refused(3)), Ok(()));
    assert!(listener.tour().is_some());
    let relocation = Command::MoveReadings(1, Readings::new(ZERO, ZERO));
    assert_eq!(listener.hear(&relocation, &Accepted), Ok(()));
    assert_eq!(listener.tour(), None);
    let not_finite = Command::MoveReadings(1, Readings::new(ZERO, INFINITY));
    assert_eq!(listener.hear(&not_finite, &Refused(11)), Ok(()));
    let heard = listener.hear(&not_finite, &Accepted);
    assert_eq!(heard, Err(Fault::OtherRecord));
}

/// Of each kind that the random readings have.
#[test]
fn random_readings_are_of_every_kind() {
    let mut random = Random::new(504);
    let mut kinds: BTreeMap<&str, usize> = BTreeMap::new();
    let halves: Vec<Reading> = (-6..6).map(|k| Reading::of_metres(100 * k + 50)).collect();
    let [above, below] = [1, -1].map(|by| halves.iter().map(|r| r.beside(by)).collect::<Vec<_>>());
    for _ in 0..100_000 {
        let step = random.between(-6, 6);
        let drawn = reading(&mut random, step);
        let mut count = |kind, holds: bool| *kinds.entry(kind).or_default() += usize::from(holds);
        count("on a step", drawn == Reading::of_metres(100 * step));
        count("on a half", halves.contains(&drawn));
        count("above a half", above.contains(&drawn));
        count("below a half", below.contains(&drawn));
        count("-0", drawn == NEGATIVE_ZERO);
        count("denormal", drawn.0 << 1 != 0 && drawn.0 & 0x7F80_0000 == 0);
        count("last on the grid", drawn == LAST_ON_GRID);
        count("first off the grid", drawn == FIRST_OFF_GRID.opposite());
        count("far off", drawn.step().is_some_and(|s| s.abs() > 1 << 32));
        count("not finite", !drawn.is_finite());
        count("the step", drawn.step() == Some(step.into()));
        count("beside it", drawn.step() == Some((step + 1).into()));
    }
    println!("{kinds:?}");
    assert_eq!(kinds.len(), 12);
    assert!(kinds.values().all(|times| *times >= 100));
    for _ in 0..10_000 {
        let position = Position::new(random.between(-12_000, 12_000), random.between(-5, 5));
        assert_eq!(
            readings_of(&mut random, position).position(),
            Some(position)
        );
        let refused = refused_readings(&mut random, position);
        assert!(!refused.position().is_some_and(Position::on_grid));
    }
}

#[test]
fn odd_readings_are_all_different() {
    let patterns: std::collections::BTreeSet<u32> = ODD.iter().map(|r| r.0).collect();
    assert_eq!(patterns.len(), ODD.len());
}

#[test]
fn steps_are_written_out() {
    let (here, off) = (metres(149, -150), Readings::new(ZERO, LARGEST.opposite()));
    let run = [add_readings(7, here), print(), move_readings(9, off)].concat();
    let steps = [
        add(Site::new(7, 1, -2)),
        print(),
        move_site(Site::new(9, 0, 32_767)),
    ];
    assert_eq!(written_out(&run), Some(steps.concat()));
    assert_eq!(written_out(&[]), Some(vec![]));
    // Whatever stands behind an unknown mark.
    let unknown = [&run[..], &[0x62], &run[..]].concat();
    let written = [&steps.concat()[..], &[0x62], &run[..]].concat();
    assert_eq!(written_out(&unknown), Some(written));
    for length in 1..11 {
        let cut = |command: &[u8]| written_out(&command[..length]).unwrap();
        assert_eq!(cut(&add_readings(7, here)), [ADD]);
        assert_eq!(cut(&move_readings(7, here)), [MOVE]);
    }
    let not_finite = add_readings(7, Readings::new(ZERO, INFINITY));
    assert_eq!(written_out(&not_finite), None);
    assert_eq!([0, 11, 12, 23], [0, 1, 2, 3].map(|n| length(&run, n)));
}

/// Random commands without a reading that is not finite.
fn finite_commands(random: &mut Random, count: usize) -> Vec<Vec<u8>> {
    let finite = |bytes: &Vec<u8>| {
        let readings = Command::read(bytes).unwrap().0.readings();
        readings.is_none_or(Readings::are_finite)
    };
    let commands = random::commands(random, count);
    commands.into_iter().filter(finite).collect()
}

/// Reports, reasons and what is left are the same in each call; `used` counts each run's own bytes.
#[test]
fn the_same_run_with_the_steps_written_out() {
    let mut random = Random::new(505);
    let mut by_reason: BTreeMap<u8, usize> = BTreeMap::new();
    let (mut off_grid, mut accepted) = (0, 0);
    for nth in 0..300 {
        let mut commands = finite_commands(&mut random, 120).concat();
        match nth % 4 {
            0 => commands.push(0x60),
            1 => commands.truncate(commands.len() - 1),
            2 => commands.extend(&add_readings(1, metres(0, 0))[..1 + nth % 10]),
            _ => {}
        }
        let (mut by_readings, mut by_steps) = (Book::new(), Book::new());
        let mut rest = &commands[..];
        loop {
            let room = random.pick(&[0, 1, 2, 3, 22, 60, 403, 8_192]);
            let steps = written_out(rest).expect("all readings are finite");
            let reply = by_readings.call(rest, WORK_LEN, room);
            let other = by_steps.call(&steps, WORK_LEN, room);
            assert_eq!((reply.reason, &reply.report), (other.reason, &other.report));
            let records = Record::read_all(&reply.report).unwrap();
            assert_eq!(reply.used, length(rest, records.len()));
            assert_eq!(other.used, length(&steps, records.len()));
            assert_eq!(by_readings, by_steps);
            *by_reason.entry(reply.reason).or_default() += 1;
            for (at, record) in records.iter().enumerate() {
                let from = length(rest, at);
                if [ADD_READINGS, MOVE_READINGS].contains(&rest[from]) {
                    accepted += usize::from(*record == Accepted);
                    off_grid += usize::from(*record == Refused(2));
                }
            }
            rest = &rest[reply.used..];
            if reply.reason != NO_ROOM {
                break;
            }
        }
    }
    println!("{by_reason:?}, accepted {accepted}, off the grid {off_grid}");
    let reasons = [ALL_USED, UNKNOWN_COMMAND, CUT_COMMAND, NO_ROOM];
    assert!(by_reason.keys().eq(&reasons));
    assert!(by_reason.values().all(|times| *times >= 50));
    assert!(accepted >= 1_000 && off_grid >= 200);
}

/// Every refusal of 61 and 6D but 5 comes up in them.
#[test]
fn random_commands_have_readings() {
    let mut random = Random::new(506);
    let mut refused = [0; 12];
    let mut accepted = 0;
    let mut book = Book::new();
    for command in random::commands(&mut random, 20_000) {
        let of_readings = [ADD_READINGS, MOVE_READINGS].contains(&command[0]);
        match book.records(&[command])[0] {
            Refused(number) if of_readings => refused[usize::from(number)] += 1,
            Accepted if of_readings => accepted += 1,
            _ => {}
        }
    }
    println!("accepted {accepted}, refusals by number: {refused:?}");
    assert!(accepted >= 1_000);
    assert!([1, 2, 3, 4, 11].iter().all(|n| refused[*n] >= 100));
}
