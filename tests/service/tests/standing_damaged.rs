//! Damaged standing legs and lists (document 02, C-17): a leg off the grid or a wrong list gives 69
//! where all else is sound, and 65 beside any other fault; the leg's flag, and its zeros without a
//! leg, are layout, 65. The sites of a table with 69 can be read: a table made anew of them lists
//! what it should.

use reference::book::{ALL_USED, Book, Tour, WRONG_LENGTH};
use reference::command::{
    add, add_readings, begin, corner, list, move_readings, print, remove, stand,
};
use reference::grid::{
    HALF_WIDTH, Leg, MOST_SITES, Position, Site, TABLE_LEN, WORK_LEN, WRONG_WORK, spread,
};
use reference::layout::{Case, LAYOUTS, Layout, case};
use reference::random::Random;
use reference::reading::Readings;
use reference::readings::{INFINITY, ZERO, metres};
use reference::record::Record::{self, Accepted, List, Refused};
use reference::ties::way_back;
use reference::{hull, split};
use service::bytes::{
    ENTRIES_LISTED, FAR_EDGE, LAYOUT, LEG_FLAG, LEG_WORDS, LEVELS, SITES_HELD, STACK_END, TOUR,
    TOUR_FLAG, empty_table, leg, listed, listed_at, number, put_number, put_word, sites, word,
};
use service::damage::{Outcomes, assert_wrong_length_first, offer, regions};
use service::desk::{Desk, Lent};
use service::faults::{ELSEWHERE, Elsewhere, STANDING, Standing};
use service::shape::{self, Dealing};
use service::table::{Rule, broken_rules, reason};
use service::{BROKEN_STANDING, BROKEN_TABLE, Service, on_each_service};
use std::collections::BTreeMap;
use std::path::Path;

/// Up to 40 sites lie in every layout; more in those with long lists, many ties, or neither.
const FEW: [usize; 8] = [0, 1, 2, 3, 8, 9, 17, 40];
const MANY: [usize; 3] = [100, 300, MOST_SITES];
const LAYOUTS_OF_MANY: [Layout; 3] = [Layout::AlongLeg, Layout::MirroredWide, Layout::Wide];
/// Faults of each kind that are put into each table.
const EACH: usize = 3;
const WORDS_CHANGED: usize = 6_000;
/// Legs that are asked of a table made anew.
const LEGS_ASKED: usize = 6;

on_each_service!(
    the_bytes_that_the_layout_names,
    tables_of_earlier_releases,
    every_length,
    every_flag,
    every_coordinate,
    coordinates_beside_the_edge_and_the_leg,
    every_listed_number,
    every_value_of_a_listed_number,
    every_fault_alone,
    two_faults_of_the_standing_half,
    faults_of_both_halves,
    the_empty_table,
    what_stands_behind_the_list,
    all_but_the_standing_half_decides_on_65,
    lengths_come_before_and_commands_after,
    buffers_are_left_whatever_they_held,
    tables_made_anew_list_what_they_should,
);

/// The reason for this table, by a call without commands: all is left but the work buffer, which is
/// zero. No checker has a say in it.
fn reason_of(service: &impl Service, table: &[u8]) -> u32 {
    let mut after = table.to_vec();
    let mut lent = Lent::new(number(table, ENTRIES_LISTED), WORK_LEN, 9);
    let answer = lent.batch(service, &mut after, &[]);
    assert_eq!((answer.1, answer.2), (0, 0));
    lent.assert_after(&answer, &[]);
    assert!(after == table, "the table is left");
    answer.0
}

/// The checker's word on it.
fn checked(table: &[u8]) -> u32 {
    reason(&broken_rules(table)).unwrap_or(ALL_USED.into())
}

/// Both say so.
fn assert_reason(service: &impl Service, table: &[u8], due: u32, what: &str) {
    assert_eq!(checked(table), due, "{what}");
    assert_eq!(reason_of(service, table), due, "{what}");
}

fn with_word(table: &[u8], at: usize, value: u16) -> Vec<u8> {
    let mut changed = table.to_vec();
    put_word(&mut changed, at, value);
    changed
}

/// A sound table of any shape and the case of its book.
struct Sound {
    table: Vec<u8>,
    case: Case,
}

fn sound(random: &mut Random, case: Case, with_leg: bool, with_tour: bool) -> Sound {
    let mut book = Book::of(&case.sites, with_leg.then_some(case.leg));
    if with_tour {
        let held: Vec<u16> = book.lines.keys().copied().collect();
        book.tour = Some(Tour {
            corner: case.leg.e,
            remembered: (!held.is_empty()).then(|| random.pick(&held)),
        });
    }
    let table = match random.between(1, 3) {
        1 => shape::table(&book, &mut Dealing::Even),
        2 => shape::table(&book, &mut Dealing::Tallest),
        _ => shape::table(&book, &mut Dealing::Any(random)),
    };
    Sound { table, case }
}

/// Tables of all sizes, each with a leg and without, with a tour and without.
fn tables(random: &mut Random) -> Vec<Sound> {
    let few = FEW.iter().flat_map(|count| LAYOUTS.map(|l| (*count, l)));
    let many = MANY
        .iter()
        .flat_map(|count| LAYOUTS_OF_MANY.map(|l| (*count, l)));
    let mut tables = Vec::new();
    for (count, layout) in few.chain(many) {
        for (with_leg, with_tour) in [(true, false), (true, true), (false, false), (false, true)] {
            let case = case(random, layout, count);
            tables.push(sound(random, case, with_leg, with_tour));
        }
    }
    tables
}

/// So many sites along a leg across the grid, all listed.
fn all_listed(count: u16) -> Vec<u8> {
    let nth = |number: u16| Site::new(number, spread(number.into()), 0);
    let sites: Vec<Site> = (1..=count).map(nth).collect();
    let leg = Leg::new((-HALF_WIDTH, 0), (HALF_WIDTH, 0));
    let table = shape::table(&Book::of(&sites, Some(leg)), &mut Dealing::Even);
    assert_eq!(listed(&table), (1..=count).collect::<Vec<_>>());
    table
}

/// A table without a leg, and without a site but with a leg.
fn without_a_list() -> [Vec<u8>; 2] {
    let leg = Leg::new((-3, 4), (500, -6));
    let site = [Site::new(7, 1, 2)];
    [(&site[..], None), (&[][..], Some(leg))]
        .map(|(sites, leg)| shape::table(&Book::of(sites, leg), &mut Dealing::Even))
}

/// Commands that read all of a table and change it.
fn questions(case: &Case) -> Vec<u8> {
    let Leg { s, e } = case.leg;
    let commands = [
        corner(s),
        list(case.leg),
        print(),
        begin(e),
        corner(s),
        add(Site::new(64_999, 1, 1)),
        remove(64_999),
        add_readings(64_999, metres(150, 149)),
        move_readings(64_999, metres(0, 0)),
        stand(way_back(&case.leg)),
        print(),
    ];
    commands.concat()
}

/// By docs/LAYOUT.md's own numbers, on two sites and document 01's leg, and on an empty table.
fn the_bytes_that_the_layout_names(service: &impl Service) {
    let sites = [Site::new(1, 2, 3), Site::new(2, 7, 1)];
    let leg = Leg::new((0, 0), (10, 0));
    let two = shape::table(&Book::of(&sites, Some(leg)), &mut Dealing::Even);
    let cases = [
        // The flag, and a leg that is not there.
        (&two, 2, 1, 0),
        (&two, 2, 0, 65),
        (&two, 2, 2, 65),
        // The leg's words: as they are, on the grid's edges, and off it.
        (&two, 4, 12_000, 0),
        (&two, 4, 0, 0),
        (&two, 8, 24_000, 0),
        (&two, 8, 12_000, 69),
        (&two, 4, 24_001, 69),
        (&two, 6, 24_001, 69),
        (&two, 8, 24_001, 69),
        (&two, 10, 24_001, 69),
        (&two, 10, 65_535, 69),
        // The length, and the list.
        (&two, 12, 2, 0),
        (&two, 12, 0, 69),
        (&two, 12, 1, 69),
        (&two, 12, 3, 69),
        (&two, 12, 512, 69),
        (&two, 12, 513, 69),
        (&two, 12, 514, 69),
        (&two, 4_160, 2, 69),
        (&two, 4_160, 0, 69),
        (&two, 4_162, 1, 69),
        (&two, 4_162, 3, 69),
        (&two, 4_164, 3, 0),
        (&two, 5_182, 65_535, 0),
        // Around them.
        (&two, 0, 3, 65),
        (&two, 14, 1, 65),
        (&two, 16, 2, 65),
        (&two, 5_184, 2, 65),
        // No site is held, and no leg stands.
        (&empty_table(), 2, 1, 0),
        (&empty_table(), 2, 2, 65),
        (&empty_table(), 4, 1, 65),
        (&empty_table(), 10, 24_001, 65),
        (&empty_table(), 12, 1, 69),
        (&empty_table(), 12, 513, 69),
        (&empty_table(), 4_160, 1, 0),
    ];
    for (table, at, value, due) in cases {
        let table = with_word(table, at, value);
        assert_reason(service, &table, due, &format!("{value} at {at}"));
    }
}

/// The list of another tie rule is no longer a fault of the layout; another layout still is.
fn tables_of_earlier_releases(service: &impl Service) {
    for (name, due) in [
        ("0.7.0", 65),
        ("0.8.0-changed", 69),
        ("0.8.0-unchanged", 0),
        ("0.9.0", 0),
        ("0.10.0-touring", 0),
    ] {
        let root = Path::new(env!("CARGO_MANIFEST_DIR")).join("../tables");
        let table = std::fs::read(root.join(format!("release-{name}.stops")));
        assert_reason(service, &table.expect("the table is kept"), due, name);
    }
}

/// Each value of the word at this byte, or above 600 one in so many: the service says what is due
/// for it, and so does the checker, which is not asked each time. How often which reason was due.
fn values(
    service: &impl Service,
    table: &[u8],
    (at, step): (usize, usize),
    due: impl Fn(u16) -> u32,
) -> BTreeMap<u32, usize> {
    let mut times = BTreeMap::new();
    let mut table = table.to_vec();
    for value in (0..=600).chain((601..=u16::MAX).step_by(step)) {
        put_word(&mut table, at, value);
        assert_eq!(reason_of(service, &table), due(value), "{value} at {at}");
        if value <= 600 || value % 97 == 0 {
            assert_eq!(checked(&table), due(value), "{value} at {at}");
        }
        *times.entry(due(value)).or_default() += 1;
    }
    times
}

/// One is right in each table, with a list, without one and without a leg.
fn every_length(service: &impl Service) {
    let mut random = Random::new(451);
    let row = all_listed(12);
    let mut toured = row.clone();
    let corner = Position::new(0, 5);
    shape::write_tour(&mut toured, Some(Tour::begun(corner)));
    let one = case(&mut random, Layout::Wide, 1);
    let one = sound(&mut random, one, true, false).table;
    let [without_leg, without_site] = without_a_list();
    for (table, step) in [
        (row, 1),
        (toured, 1),
        (one, 1),
        (empty_table(), 1),
        (without_leg, 1),
        (without_site, 1),
        (all_listed(512), 7),
    ] {
        let right = word(&table, ENTRIES_LISTED);
        let due = |length| if length == right { 0 } else { BROKEN_STANDING };
        let times = values(service, &table, (ENTRIES_LISTED, step), due);
        assert_eq!(times[&0], 1);
        assert!(times[&BROKEN_STANDING] >= 65_535 / step);
    }
}

/// Where a leg stands and where none does, with sites and without.
fn every_flag(service: &impl Service) {
    let at_corner = Position::new(-HALF_WIDTH, -HALF_WIDTH);
    let corner_leg = Leg {
        s: at_corner,
        e: at_corner,
    };
    let leg = Leg::new((0, 0), (10, 0));
    let some = [Site::new(1, 2, 3), Site::new(2, 7, 1)];
    // What the other of 0 and 1 gives: words of a leg without one, a list without a leg, or a leg
    // without its list.
    for (sites, leg, other, step) in [
        (&some[..], Some(leg), BROKEN_TABLE, 1),
        (&[], Some(leg), BROKEN_TABLE, 97),
        (&some, Some(corner_leg), BROKEN_STANDING, 97),
        (&[], Some(corner_leg), 0, 97),
        (&some, None, BROKEN_STANDING, 1),
        (&[], None, 0, 97),
    ] {
        let table = shape::table(&Book::of(sites, leg), &mut Dealing::Even);
        let right = word(&table, LEG_FLAG);
        values(service, &table, (LEG_FLAG, step), |flag| match flag {
            2.. => BROKEN_TABLE,
            flag if flag == right => 0,
            _ => other,
        });
    }
}

/// Of each of the four words, where every leg on the grid has the same list: that of no site, and
/// of one. Without a leg they are 0.
fn every_coordinate(service: &impl Service) {
    let [_, without_site] = without_a_list();
    let one = Book::of(&[Site::new(7, 1, 2)], Some(Leg::new((5, 5), (900, 0))));
    let one = shape::table(&one, &mut Dealing::Even);
    let [without_leg, _] = without_a_list();
    let off_grid = |value: u16| if value <= 24_000 { 0 } else { BROKEN_STANDING };
    let not_zero = |value: u16| if value == 0 { 0 } else { BROKEN_TABLE };
    for at in LEG_WORDS {
        let times = values(service, &without_site, (at, 1), off_grid);
        assert_eq!((times[&0], times[&BROKEN_STANDING]), (24_001, 41_535));
        values(service, &one, (at, 5), off_grid);
        for table in [&without_leg, &empty_table()] {
            let times = values(service, table, (at, 97), not_zero);
            assert!(times[&0] == 1 && times[&BROKEN_TABLE] >= 1_000);
        }
    }
}

/// In tables of many sites a leg that moves has another list, or now and then the same.
fn coordinates_beside_the_edge_and_the_leg(service: &impl Service) {
    let mut random = Random::new(453);
    let edge = (FAR_EDGE - 3..=FAR_EDGE + 3).chain([0, 1, 2, 32_767, 32_768, 65_534, 65_535]);
    let edge: Vec<u16> = edge.collect();
    let (mut on_grid, mut off_grid) = (Outcomes::default(), Outcomes::default());
    for Sound { table, case } in tables(&mut random) {
        if leg(&table).is_none() {
            continue;
        }
        for at in LEG_WORDS {
            let right = word(&table, at);
            let beside = [1, 2, 16, 256].map(|by| right.wrapping_add(by));
            let before = [1, 2, 16, 256].map(|by| right.wrapping_sub(by));
            let values = edge.iter().chain(&beside).chain(&before);
            for value in values {
                let broken = offer(service, &with_word(&table, at, *value), &questions(&case));
                if *value <= FAR_EDGE {
                    assert!(broken.is_empty() || broken == [Rule::StandingList]);
                    on_grid.count(&broken);
                } else {
                    assert_eq!(broken, [Rule::LegOnGrid]);
                    off_grid.count(&broken);
                }
            }
        }
    }
    println!("on the grid {on_grid:?}, off it {off_grid:?}");
    assert!(on_grid.with_69 >= 1_000 && on_grid.taken >= 1_000);
    assert!(off_grid.with_69 >= 4_000);
}

/// Each entry in turn: 0, a bit flipped, another held number, one that is not held, a neighbour's.
fn every_listed_number(service: &impl Service) {
    let mut random = Random::new(454);
    let (mut by_kind, mut longest) = (BTreeMap::new(), 0);
    let row = [12, 100].map(all_listed);
    let full = all_listed(512);
    let drawn = tables(&mut random).into_iter().map(|sound| sound.table);
    for table in drawn.chain(row).chain([full]) {
        let (list, held) = (listed(&table), sites(&table));
        longest = longest.max(list.len());
        let is_held = |number: &u16| held.iter().any(|site| site.number == *number);
        for (i, right) in list.iter().copied().enumerate() {
            // Of many held sites one, of few each.
            let others: Vec<u16> = match held.len() {
                0..=40 => held.iter().map(|site| site.number).collect(),
                _ => vec![random.pick(&held).number],
            };
            let near = [right.wrapping_sub(1), right.wrapping_add(1), 1, u16::MAX];
            let neighbours = &list[i.saturating_sub(1)..list.len().min(i + 2)];
            let bits = (0..16).map(|bit| right ^ 1 << bit).collect();
            for (kind, values) in [
                ("0", vec![0]),
                ("bits", bits),
                ("held", others),
                (
                    "not held",
                    near.into_iter().filter(|n| !is_held(n)).collect(),
                ),
                ("neighbour", neighbours.to_vec()),
            ] {
                for value in values.into_iter().filter(|value| *value != right) {
                    let damaged = with_word(&table, listed_at(i), value);
                    let said = reason_of(service, &damaged);
                    assert_eq!(said, BROKEN_STANDING, "{value}, not {right}, in entry {i}");
                    *by_kind.entry(kind).or_insert(0) += 1;
                    if held.len() <= 40 {
                        assert_eq!(broken_rules(&damaged), [Rule::StandingList]);
                    }
                }
            }
        }
    }
    println!("{by_kind:?}, lists of up to {longest} entries");
    assert_eq!((by_kind.len(), longest), (5, MOST_SITES));
    assert!(by_kind.values().all(|times| *times >= 1_000));
}

/// In the first, an inner and the last entry of a list.
fn every_value_of_a_listed_number(service: &impl Service) {
    let table = all_listed(12);
    for i in [0, 5, 11] {
        let right = listed(&table)[i];
        let due = |number| if number == right { 0 } else { BROKEN_STANDING };
        let times = values(service, &table, (listed_at(i), 1), due);
        assert_eq!((times[&0], times[&BROKEN_STANDING]), (1, 65_535));
    }
}

fn every_fault_alone(service: &impl Service) {
    let mut random = Random::new(455);
    let mut times: BTreeMap<Standing, usize> = BTreeMap::new();
    let mut sizes: BTreeMap<usize, usize> = BTreeMap::new();
    for Sound { table, case } in tables(&mut random) {
        assert_reason(service, &table, 0, "a sound table");
        for fault in STANDING.repeat(EACH) {
            let Some(damaged) = fault.put(&mut random, &table) else {
                continue;
            };
            let rule = match fault {
                Standing::LegOff => Rule::LegOnGrid,
                _ => Rule::StandingList,
            };
            assert_eq!(offer(service, &damaged, &questions(&case)), [rule]);
            assert_reason(service, &damaged, 69, &format!("{fault:?}"));
            assert_eq!(sites(&damaged), sites(&table), "they can be read");
            *times.entry(fault).or_default() += 1;
            *sizes.entry(case.sites.len()).or_default() += 1;
        }
    }
    println!("with 69: {times:?}, by sites {sizes:?}");
    assert!(STANDING.iter().all(|fault| times[fault] >= 200));
    let all = FEW.iter().chain(&MANY);
    assert!(all.into_iter().all(|count| sizes[count] >= 100));
}

/// The bytes in which the second differs from the sound table, written into the first.
fn together(sound: &[u8], one: &[u8], other: &[u8]) -> Vec<u8> {
    let mut both = one.to_vec();
    for at in (0..TABLE_LEN).filter(|at| other[*at] != sound[*at]) {
        both[at] = other[at];
    }
    both
}

/// They never give 65; now and then two make a leg and a list that are right again.
fn two_faults_of_the_standing_half(service: &impl Service) {
    let mut random = Random::new(456);
    let (mut outcomes, mut off_and_wrong) = (Outcomes::default(), 0);
    for Sound { table, case } in tables(&mut random) {
        for first in STANDING {
            let second = random.pick(&STANDING);
            let faults = [first, second].map(|fault| fault.put(&mut random, &table));
            let [Some(one), Some(other)] = faults else {
                continue;
            };
            let both = together(&table, &one, &other);
            let broken = offer(service, &both, &questions(&case));
            assert_ne!(reason(&broken), Some(BROKEN_TABLE), "{first:?} {second:?}");
            outcomes.count(&broken);
            let off = leg(&both).is_some_and(|leg| !leg.s.on_grid() || !leg.e.on_grid());
            if off {
                assert_eq!(broken, [Rule::LegOnGrid]);
                off_and_wrong += usize::from(first != second);
            }
        }
    }
    println!("{outcomes:?}, {off_and_wrong} of them off the grid and with another fault");
    assert!(outcomes.with_69 >= 500 && off_and_wrong >= 100);
}

/// Each alone, and both: the standing fault gives 69, the other one 65, and so do both.
fn faults_of_both_halves(service: &impl Service) {
    let mut random = Random::new(457);
    let mut times: BTreeMap<(Standing, Elsewhere), usize> = BTreeMap::new();
    for Sound { table, case } in tables(&mut random) {
        let pairs = STANDING.iter().flat_map(|f| ELSEWHERE.map(|p| (*f, p)));
        for (fault, part) in pairs.collect::<Vec<_>>().repeat(EACH) {
            let Some(standing) = fault.put(&mut random, &table) else {
                continue;
            };
            let (at, value) = part.word(&mut random, &table);
            let (other, both) = (
                with_word(&table, at, value),
                with_word(&standing, at, value),
            );
            let what = format!("{fault:?}, and {value} at {at}");
            assert_eq!(reason_of(service, &standing), BROKEN_STANDING, "{what}");
            assert_eq!(reason_of(service, &other), BROKEN_TABLE, "{what}");
            assert_eq!(reason_of(service, &both), BROKEN_TABLE, "{what}");
            let broken = offer(service, &both, &questions(&case));
            assert_eq!(reason(&broken), Some(BROKEN_TABLE), "{what}");
            *times.entry((fault, part)).or_default() += 1;
        }
    }
    println!("with 65: {times:?}");
    assert_eq!(times.len(), STANDING.len() * ELSEWHERE.len());
    assert!(times.values().all(|times| *times >= 200));
}

/// Laid out, then only a leg or a length written.
fn the_empty_table(service: &impl Service) {
    let mut random = Random::new(458);
    let mut times = [0; 3];
    for nth in 0..600 {
        let mut table = empty_table();
        let with_leg = nth % 3 != 0;
        let (mut off, mut due) = (false, 0);
        if with_leg {
            put_word(&mut table, LEG_FLAG, 1);
            for at in LEG_WORDS {
                let value = random.pick(&[0, 12_000, 24_000, 24_001, 24_002, 65_535]);
                put_word(&mut table, at, value);
                off |= value > 24_000;
            }
        }
        let length = random.pick(&[0, 0, 0, 1, 2, 511, 512, 513, 32_768, 65_535]);
        put_word(&mut table, ENTRIES_LISTED, length);
        put_word(&mut table, listed_at(0), random.pick(&[0, 1, 65_535]));
        if off || length != 0 {
            due = BROKEN_STANDING;
        }
        assert_reason(service, &table, due, "no site is held");
        times[usize::from(due != 0) * (1 + usize::from(off))] += 1;
        // Beside a tree that holds none, a site that is in none, another layout; a tour is sound.
        let (at, value, else_due) = random.pick(&[
            (LEVELS, 1, BROKEN_TABLE),
            (SITES_HELD, 1, BROKEN_TABLE),
            (SITES_HELD, 513, BROKEN_TABLE),
            (LAYOUT, 1, BROKEN_TABLE),
            (TOUR_FLAG, 2, BROKEN_TABLE),
            (TOUR_FLAG, 1, due),
        ]);
        let table = with_word(&table, at, value);
        assert_reason(service, &table, else_due, &format!("{value} at {at}"));
    }
    println!("taken, wrong length, leg off the grid: {times:?}");
    assert!(times.iter().all(|times| *times >= 60));
}

/// Free bytes: they are taken whatever they are, and do not help a list that is too short.
fn what_stands_behind_the_list(service: &impl Service) {
    let mut random = Random::new(459);
    let (mut taken, mut refused) = (0, 0);
    for Sound { mut table, case } in tables(&mut random) {
        let list = listed(&table);
        let fill = random.between(1, 4);
        for i in list.len()..MOST_SITES {
            let number = match (fill, &list[..]) {
                (1, _) => 0,
                (2, _) => u16::MAX,
                // The list goes on as it began, or with any numbers.
                (3, [_, ..]) => list[i % list.len()],
                _ => u16::try_from(random.between(0, 65_535)).unwrap(),
            };
            put_word(&mut table, listed_at(i), number);
        }
        assert_eq!(offer(service, &table, &questions(&case)), []);
        taken += 1;
        for length in [list.len().wrapping_sub(1), list.len() + 1, MOST_SITES] {
            if length <= MOST_SITES && length != list.len() {
                put_number(&mut table, ENTRIES_LISTED, length);
                assert_reason(service, &table, 69, "another length");
                refused += 1;
            }
        }
        put_number(&mut table, ENTRIES_LISTED, list.len());
        for fault in [Standing::LegOff, Standing::Bit, Standing::Outdated] {
            if let Some(damaged) = fault.put(&mut random, &table) {
                assert_reason(service, &damaged, 69, "another list");
                refused += 1;
            }
        }
    }
    println!("taken {taken}, refused {refused}");
    assert!(taken >= 300 && refused >= 1_000);
}

/// With neither leg nor list where a leg stood, and without a list else: then nothing is left that
/// 69 is said for.
fn without_standing(table: &[u8]) -> Vec<u8> {
    let mut emptied = table.to_vec();
    put_word(&mut emptied, ENTRIES_LISTED, 0);
    if leg(table).is_some() {
        emptied[LEG_FLAG..ENTRIES_LISTED].fill(0);
    }
    emptied
}

/// Words changed anywhere: a table gets 65 exactly if it does so without its standing half, and 69
/// if it then is sound. So the service is compared with itself, and then with the checker.
fn all_but_the_standing_half_decides_on_65(service: &impl Service) {
    let mut random = Random::new(460);
    let mut times: BTreeMap<u32, usize> = BTreeMap::new();
    for nth in 0..WORDS_CHANGED {
        let count = random.index(if nth % 20 == 0 { 300 } else { 25 });
        let layout = random.pick(&LAYOUTS);
        let case = case(&mut random, layout, count);
        let (with_leg, with_tour) = (!random.once_in(4), random.once_in(2));
        let mut table = sound(&mut random, case, with_leg, with_tour).table;
        let regions = regions(&table);
        for _ in 0..1 + random.index(3) {
            // The header, and the list where there is one, more often than all the rest.
            let region = match random.between(1, 3) {
                1 => 0,
                2 => 2,
                _ => random.index(regions.len()),
            };
            let bytes = regions[region].bytes.clone();
            if bytes.is_empty() {
                continue;
            }
            // Up to the tour, so that the leg's words are hit often.
            let at = bytes.start + 2 * random.index(bytes.len().min(TOUR.end) / 2);
            let value = match random.between(1, 5) {
                1 => word(&table, at) ^ 1 << random.index(16),
                2 => random.pick(&[0, 1, 2, 512, 513, FAR_EDGE, FAR_EDGE + 1, 65_535]),
                3 => u16::try_from(random.between(0, 65_535)).unwrap(),
                4 => word(&table, at).wrapping_add(1),
                _ => word(&table, 2 * random.index(STACK_END / 2)),
            };
            put_word(&mut table, at, value);
        }
        let (reason, emptied) = (
            reason_of(service, &table),
            reason_of(service, &without_standing(&table)),
        );
        let due = if reason == BROKEN_TABLE { reason } else { 0 };
        assert_eq!(emptied, due, "without standing leg and list, {reason} with");
        assert_eq!(reason, checked(&table));
        *times.entry(reason).or_default() += 1;
    }
    println!("{times:?}");
    assert_eq!(times.len(), 3);
    assert!(times.values().all(|times| *times >= WORDS_CHANGED / 20));
}

/// A table with each fault, of several sizes.
fn faulty(random: &mut Random) -> Vec<(Vec<u8>, Case)> {
    let mut faulty = Vec::new();
    for count in [0, 1, 9, 40, MOST_SITES] {
        let case = case(random, Layout::AlongLeg, count);
        for with_leg in [true, false] {
            let Sound { table, case } = sound(random, case.clone(), with_leg, with_leg);
            let damaged = STANDING.map(|fault| fault.put(random, &table));
            faulty.extend(damaged.into_iter().flatten().map(|t| (t, case.clone())));
        }
    }
    assert!(faulty.len() >= 40, "{}", faulty.len());
    faulty
}

/// 64, then 65, then 69, then 66 or 67, and 68 last.
fn lengths_come_before_and_commands_after(service: &impl Service) {
    let mut random = Random::new(461);
    for (table, case) in faulty(&mut random) {
        for work_len in WRONG_WORK {
            assert_wrong_length_first(service, &table, work_len);
        }
        for wrong in [&table[..TABLE_LEN - 1], &[&table[..], &[0]].concat()] {
            let mut after = wrong.to_vec();
            let mut lent = Lent::new(wrong.len(), WORK_LEN, 9);
            let answer = lent.batch(service, &mut after, &print());
            assert_eq!(answer, (u32::from(WRONG_LENGTH), 0, 0));
            lent.assert_after(&answer, &[]);
            assert!(after == wrong, "64 leaves the table");
        }
        let unknown = [&[0x3F][..], &questions(&case)].concat();
        for (commands, room) in [
            (unknown, 9),
            (add(Site::new(1, 2, 3))[..6].to_vec(), 9),
            (add_readings(1, metres(200, 300))[..10].to_vec(), 9),
            (move_readings(1, Readings::new(INFINITY, ZERO)), 9),
            (print(), 0),
            (questions(&case), 99),
            (vec![], 0),
        ] {
            let mut after = table.clone();
            let mut lent = Lent::new(room, WORK_LEN, room);
            let answer = lent.batch(service, &mut after, &commands);
            assert_eq!(answer, (BROKEN_STANDING, 0, 0), "{commands:02X?}");
            lent.assert_after(&answer, &[]);
            assert!(after == table, "69 leaves the table");
        }
    }
}

/// After 65 and 69 the table and the report are what they were, byte for byte, and the work buffer
/// is zero.
fn buffers_are_left_whatever_they_held(service: &impl Service) {
    let mut random = Random::new(462);
    let mut times: BTreeMap<u32, usize> = BTreeMap::new();
    for (table, case) in faulty(&mut random) {
        let others = ELSEWHERE.map(|part| {
            let (at, value) = part.word(&mut random, &table);
            (with_word(&table, at, value), BROKEN_TABLE)
        });
        for (table, due) in [(table, BROKEN_STANDING)].into_iter().chain(others) {
            for room in [0, 1, 200, 8_192] {
                let mut byte = || u8::try_from(random.between(0, 255)).unwrap();
                let mut work: Vec<u8> = (0..WORK_LEN).map(|_| byte()).collect();
                let report: Vec<u8> = (0..room).map(|_| byte()).collect();
                let (mut after, mut written) = (table.clone(), report.clone());
                let commands = questions(&case);
                let answer = service.batch(&mut after, &mut work, &commands, &mut written);
                assert_eq!(answer, (due, 0, 0));
                assert!(after == table, "{due} leaves the table");
                assert!(written == report, "{due} leaves the report");
                assert!(work.iter().all(|byte| *byte == 0), "zero after {due}");
                *times.entry(due).or_default() += 1;
            }
        }
    }
    println!("{times:?}");
    assert!(times.len() == 2 && times.values().all(|times| *times >= 150));
}

/// An empty table, and these sites added in any order and any batches.
fn made_anew<'s, S: Service>(service: &'s S, random: &mut Random, sites: &[Site]) -> Desk<'s, S> {
    let mut additions: Vec<Vec<u8>> = sites.iter().copied().map(add).collect();
    random.shuffle(&mut additions);
    let mut desk = Desk::lay_out(service);
    while !additions.is_empty() {
        let later = additions.split_off(1 + random.index(additions.len()));
        let records = desk.records(&additions);
        assert!(records.iter().all(|record| *record == Accepted));
        additions = later;
    }
    assert_eq!(desk.book.sites(), sites);
    desk
}

/// The record that is due for this leg: by the definition, or for many sites by the hull.
fn listing(leg: &Leg, sites: &[Site]) -> Record {
    match sites.len() {
        0 => Refused(6),
        1..=20 => List(split::split_list(leg, sites)),
        _ => List(hull::split_list(leg, sites)),
    }
}

/// Whether a command has bits for it.
fn fits(leg: &Leg) -> bool {
    let Leg { s, e } = leg;
    let fits = |coordinate: i64| i16::try_from(coordinate).is_ok();
    [s.east, s.north, e.east, e.north].into_iter().all(fits)
}

/// The leg of a table with 69 is set in the one made anew: then its list is right, unless it is off
/// the grid and refused.
fn set_leg<S: Service>(fresh: &mut Desk<S>, leg: Option<Leg>, wrong: &[u16]) -> &'static str {
    let sites = fresh.book.sites();
    match leg {
        None => {
            assert_eq!(fresh.records(&[print()]), [Refused(7)]);
            "without a leg"
        }
        Some(leg) if leg.s.on_grid() && leg.e.on_grid() => {
            let due = listing(&leg, &sites);
            let answers = fresh.records(&[stand(leg), print(), list(leg)]);
            assert_eq!(answers, [Accepted, due.clone(), due.clone()]);
            let numbers: Vec<u16> = match &due {
                List(list) => list.iter().map(|entry| entry.site).collect(),
                _ => vec![],
            };
            assert_eq!(listed(&fresh.table), numbers);
            assert_ne!(numbers, wrong, "the list that was refused");
            "with its leg"
        }
        Some(leg) => {
            if fits(&leg) {
                assert_eq!(fresh.records(&[stand(leg)]), [Refused(2)]);
            }
            assert_eq!(fresh.records(&[print()]), [Refused(7)]);
            "with a leg off the grid"
        }
    }
}

/// The sites of a table with 69, read from its bytes and added to an empty table, and its leg:
/// lists are those of the definition, and those of the table before it was damaged.
fn tables_made_anew_list_what_they_should(service: &impl Service) {
    let mut random = Random::new(463);
    let (mut anew, mut entries) = (BTreeMap::new(), 0);
    for Sound { table, case } in tables(&mut random) {
        let faults = match case.sites.len() {
            0..=40 => STANDING.to_vec(),
            _ => vec![random.pick(&STANDING)],
        };
        for fault in faults {
            let Some(damaged) = fault.put(&mut random, &table) else {
                continue;
            };
            assert_eq!(reason_of(service, &damaged), BROKEN_STANDING);
            let mut fresh = made_anew(service, &mut random, &sites(&damaged));
            let mut before = Desk::take_up(service, table.clone());
            assert_eq!(before.book.lines, fresh.book.lines);
            let mut legs = vec![case.leg, way_back(&case.leg)];
            for _ in 0..LEGS_ASKED {
                let layout = random.pick(&LAYOUTS);
                legs.push(self::case(&mut random, layout, 0).leg);
            }
            for leg in legs {
                let due = listing(&leg, &sites(&damaged));
                let answers = fresh.records(&[list(leg)]);
                assert_eq!(answers, [due], "{fault:?}");
                assert_eq!(before.records(&[list(leg)]), answers);
                if let [List(list)] = &answers[..] {
                    entries += list.len();
                }
            }
            let kind = set_leg(&mut fresh, leg(&damaged), &listed(&damaged));
            assert_eq!(reason_of(service, &fresh.table), 0);
            *anew.entry(kind).or_insert(0) += 1;
        }
    }
    println!("made anew: {anew:?}; {entries} entries compared");
    assert!(anew.len() == 3 && anew.values().all(|times| *times >= 100));
    assert!(entries >= 20_000);
}
