//! Random histories: what the program says is what the second program's site book answers.

mod common;

use common::{answers, lines, run, without_points};
use reference::book::Book;
use reference::command;
use reference::grid::{Leg, Position, Site};
use reference::layout::{LAYOUTS, case};
use reference::random::{self, Random};
use reference::record::Record;

/// The leg of each command that got a list, in turn.
fn listed_legs(commands: &[Vec<u8>], records: &[Record]) -> Vec<Leg> {
    let (mut standing, mut corner, mut legs) = (None, None, Vec::new());
    for (command, record) in commands.iter().zip(records) {
        match (command[0], record) {
            (b'S', Record::Accepted) => standing = Some(leg(command)),
            (b'L', Record::List(_)) => legs.push(leg(command)),
            (b'P', Record::List(_)) => legs.extend(standing),
            (b'B', Record::Accepted) => corner = Some(position(command, 1)),
            (b'C', Record::List(_)) => {
                let e = position(command, 1);
                let s = corner.replace(e).expect("a tour has a corner");
                legs.push(Leg { s, e });
            }
            _ => {}
        }
    }
    legs
}

fn leg(command: &[u8]) -> Leg {
    Leg {
        s: position(command, 1),
        e: position(command, 5),
    }
}

fn position(command: &[u8], at: usize) -> Position {
    let word = |at: usize| i16::from_le_bytes([command[at], command[at + 1]]);
    Position::new(word(at).into(), word(at + 2).into())
}

/// Three decimals: the thousandths, whatever the sign.
fn thousandths(text: &str) -> i128 {
    let (whole, part) = text.split_once('.').unwrap();
    assert_eq!(part.len(), 3);
    assert_ne!(text, "-0.000");
    format!("{whole}{part}").parse().unwrap()
}

/// No thousandth is nearer to s + n/d (e - s), and of two equally near ones it is the even one.
fn assert_rounds(text: &str, s: i64, e: i64, (n, d): (i128, i128)) {
    let k = thousandths(text);
    let exact = 1_000 * (i128::from(s) * d + n * i128::from(e - s));
    let twice_off = 2 * (k * d - exact).abs();
    assert!(
        twice_off < d || twice_off == d && k % 2 == 0,
        "{text}: {s} to {e}, {n}/{d}"
    );
}

fn assert_points(answers: &str, legs: &[Leg]) {
    let mut legs = legs.iter();
    let mut leg = None;
    for line in answers.lines() {
        if line.starts_with("list of") {
            leg = legs.next();
        }
        let Some(entry) = line.strip_prefix("from ") else {
            continue;
        };
        let leg = leg.expect("a list has a leg");
        let (fraction, rest) = entry.split_once(" (").unwrap();
        let (n, d) = fraction.split_once('/').unwrap();
        let t = (n.parse().unwrap(), d.parse().unwrap());
        let (point, _) = rest.split_once(") site ").unwrap();
        let (east, north) = point.split_once(", ").unwrap();
        assert_rounds(east, leg.s.east, leg.e.east, t);
        assert_rounds(north, leg.s.north, leg.e.north, t);
    }
    assert_eq!(legs.next(), None);
}

fn assert_answered(commands: &[Vec<u8>]) -> usize {
    let records = Book::new().records(commands);
    let ran = run(&["--plain"], lines(commands));
    let expected = answers(commands, &records) + "end 0: all commands used\n";
    assert_eq!(without_points(ran.text()), expected);
    let legs = listed_legs(commands, &records);
    assert_points(ran.text(), &legs);
    let refused = records
        .iter()
        .any(|record| matches!(record, Record::Refused(_)));
    assert_eq!((ran.code, ran.err.as_str()), (i32::from(refused), ""));
    legs.len()
}

#[test]
fn near_the_origin_with_many_refusals() {
    let mut random = Random::new(71);
    for _ in 0..12 {
        let listed = assert_answered(&random::commands(&mut random, 1_500));
        assert!(listed > 100, "{listed}");
    }
}

#[test]
fn every_layout_of_sites() {
    let mut random = Random::new(72);
    for layout in LAYOUTS.into_iter().cycle().take(24) {
        let case = case(&mut random, layout, 60);
        let mut commands = vec![command::stand(case.leg)];
        for site in &case.sites {
            commands.push(command::add(*site));
            commands.push(command::list(case.leg));
            commands.push(command::print());
        }
        for site in case.sites.iter().take(30) {
            let there = random.pick(&case.sites).position;
            commands.push(command::move_site(Site {
                position: there,
                ..*site
            }));
            commands.push(command::remove(random.pick(&case.sites).number));
            commands.push(command::print());
        }
        assert_answered(&commands);
    }
}

#[test]
fn a_full_table_in_every_layout() {
    let mut random = Random::new(73);
    for layout in LAYOUTS {
        let case = case(&mut random, layout, 514);
        let mut commands: Vec<Vec<u8>> =
            case.sites.iter().map(|site| command::add(*site)).collect();
        let back = Leg {
            s: case.leg.e,
            e: case.leg.s,
        };
        commands.extend([command::list(case.leg), command::list(back)]);
        assert_eq!(assert_answered(&commands), 2);
    }
}
