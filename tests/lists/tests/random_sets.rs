//! The proved code and the second program write the same record on random site sets.
//!
//! A table has its sites in the order of their numbers, and the numbers are dealt to the
//! positions at random; so the sites come in every order.

use lists::{SITE_LEN, WORK_NEEDED, leg_words, probe_list, table};
use reference::grid::{HALF_WIDTH, Leg, MOST_SITES, Position, Site, spread};
use reference::hull;
use reference::layout::{Case, LAYOUTS, case};
use reference::random::Random;
use reference::record::Record;
use reference::split::{Entry, split_list};
use reference::ties::{TIES, number_alone, renamed, right_then_higher, side_decides, way_back};

const SMALL_SETS: usize = 100_000;
const LARGE_SETS: usize = 400;
/// Bytes after each lent buffer or record, which have to stay.
const AFTER: usize = 24;

/// A byte that is not the same in all calls.
fn byte(random: &mut Random) -> u8 {
    u8::try_from(random.between(0, 255)).expect("a byte has 8 bits")
}

struct Probe {
    random: Random,
    // Never cleared, so that what an earlier call left is there to mislead the next one.
    work: Vec<u8>,
}

impl Probe {
    fn new(seed: u64) -> Self {
        let mut random = Random::new(seed);
        let work = (0..WORK_NEEDED + AFTER)
            .map(|_| byte(&mut random))
            .collect();
        Probe { random, work }
    }

    /// Asserts that a call writes the record of this list and nothing else.
    fn assert_lists(&mut self, case: &Case, list: Vec<Entry>) {
        let Probe { random, work } = self;
        let expected = Record::List(list).bytes();

        let mut table = table(&case.sites);
        for unread in table.chunks_exact_mut(SITE_LEN) {
            unread[6..].fill_with(|| byte(random));
        }
        // Further records are not read, whatever they say.
        let further = random.index(2 * SITE_LEN);
        table.extend((0..further).map(|_| byte(random)));
        let table_before = table.clone();

        let mark = byte(random);
        let mut report = vec![mark; expected.len() + AFTER];
        let lent = expected.len() + random.pick(&[0, 1, AFTER]);

        let after_rows = work[WORK_NEEDED..].to_vec();
        let n = case.sites.len();
        let leg = leg_words(&case.leg);
        let written = probe_list(&table, n, leg, work, &mut report[..lent]);

        let (record, rest) = report.split_at(expected.len());
        assert_eq!(record, expected, "{case:?}");
        assert_eq!(written, expected.len(), "{case:?}");
        assert!(rest.iter().all(|byte| *byte == mark), "{case:?}");
        assert_eq!(work[WORK_NEEDED..], after_rows, "{case:?}");
        assert_eq!(table, table_before, "{case:?}");
    }
}

/// Whether the list would name other sites if the higher number of a side won a tie.
fn number_decides(Case { leg, sites }: &Case, list: &[Entry]) -> bool {
    renamed(leg, sites, list, right_then_higher) != list
}

#[test]
fn small_sets_by_the_definition() {
    let mut random = Random::new(21);
    let mut probe = Probe::new(22);
    let (mut compared, mut decided, mut sided) = (0, 0, 0);
    let mut of_length = [0; 13];
    for i in 0..SMALL_SETS / LAYOUTS.len() {
        let count = match i % 50 {
            0 => 13 + random.index(28),
            _ => 1 + i % 12,
        };
        for layout in LAYOUTS {
            let case = case(&mut random, layout, count);
            let list = split_list(&case.leg, &case.sites);
            decided += usize::from(number_decides(&case, &list));
            sided += usize::from(side_decides(&case.leg, &case.sites, &list));
            of_length[list.len().min(12)] += 1;
            probe.assert_lists(&case, list);
            compared += 1;
        }
    }
    println!("small sets compared: {compared}; by number: {decided}; by side: {sided}");
    println!("lists by length, the last with all longer ones: {of_length:?}");
    assert_eq!(compared, SMALL_SETS);
    // The sets are no use without ties and without long lists.
    assert!(decided >= SMALL_SETS / 4 && sided >= SMALL_SETS / 10);
    assert!(of_length[1..].iter().all(|lists| *lists >= 200));
}

#[test]
fn large_sets_by_the_hull() {
    let mut random = Random::new(23);
    let mut probe = Probe::new(24);
    let (mut compared, mut sided) = (0, 0);
    for i in 0..LARGE_SETS / LAYOUTS.len() {
        let count = match i % 5 {
            0 => MOST_SITES,
            _ => 41 + random.index(MOST_SITES - 40),
        };
        for layout in LAYOUTS {
            let case = case(&mut random, layout, count);
            let list = hull::split_list(&case.leg, &case.sites);
            sided += usize::from(side_decides(&case.leg, &case.sites, &list));
            probe.assert_lists(&case, list);
            compared += 1;
        }
    }
    println!("large sets compared: {compared}; by side: {sided}");
    assert_eq!(compared, LARGE_SETS);
    assert!(sided >= LARGE_SETS / 10);
}

/// Beside a leg across the grid, so that all are listed; numbers are to be dealt.
fn all_listed(numbers: &[u16]) -> Case {
    let beside_the_leg = |(number, k): (&u16, i64)| Site::new(*number, spread(k), k % 5);
    Case {
        leg: Leg::new((-HALF_WIDTH, 2), (HALF_WIDTH, 3)),
        sites: numbers.iter().zip(0..).map(beside_the_leg).collect(),
    }
}

#[test]
fn lists_as_long_as_the_table() {
    let mut random = Random::new(25);
    let mut probe = Probe::new(26);
    let rising: Vec<u16> = (1..=512).collect();
    let falling: Vec<u16> = (1..=512).rev().collect();
    let mut orders = vec![rising.clone(), falling];
    orders.extend((0..20).map(|_| {
        let mut numbers = rising.clone();
        random.shuffle(&mut numbers);
        numbers
    }));
    for numbers in orders {
        let case = all_listed(&numbers);
        let list = hull::split_list(&case.leg, &case.sites);
        assert_eq!(list.len(), MOST_SITES);
        probe.assert_lists(&case, list);
    }
}

#[test]
fn ties_to_try() {
    let mut probe = Probe::new(28);
    for tie in TIES {
        for (leg, number) in [(tie.leg, tie.there), (way_back(&tie.leg), tie.back)] {
            let sites = tie.sites.to_vec();
            probe.assert_lists(&Case { leg, sites }, vec![Entry::new(number, 0, 1)]);
        }
    }
}

/// 256 pairs beside a leg across the grid; a place is given by steps along the leg and aside of it.
fn pairs(numbers: &[u16], place: fn(i64, i64) -> Position) -> Case {
    let position = |k: i64| place(spread(k / 2 * 2), (1 + k / 2 % 5) * (1 - k % 2 * 2));
    let site = |(number, k): (&u16, i64)| Site {
        number: *number,
        position: position(k),
    };
    let (s, e) = (place(-HALF_WIDTH, 0), place(HALF_WIDTH, 0));
    Case {
        leg: Leg { s, e },
        sites: numbers.iter().zip(0..).map(site).collect(),
    }
}

#[test]
fn long_lists_in_which_each_entry_ties() {
    let places: [fn(i64, i64) -> Position; 6] = [
        |along, aside| Position::new(along, aside),
        |along, aside| Position::new(-along, aside),
        |along, aside| Position::new(aside, along),
        |along, aside| Position::new(aside, -along),
        |along, aside| Position::new(along + aside, along - aside),
        |along, aside| Position::new(along + aside, aside - along),
    ];
    let mut random = Random::new(29);
    let mut probe = Probe::new(30);
    let mut numbers: Vec<u16> = (1..=512).collect();
    for place in places.repeat(5) {
        random.shuffle(&mut numbers);
        let Case { leg, sites } = pairs(&numbers, place);
        for leg in [leg, way_back(&leg)] {
            let list = hull::split_list(&leg, &sites);
            assert_eq!(list.len(), MOST_SITES / 2);
            let by_number = renamed(&leg, &sites, &list, number_alone);
            let sided = list.iter().zip(&by_number).filter(|(e, f)| e != f).count();
            assert!((64..=192).contains(&sided), "{sided}");
            let sites = sites.clone();
            probe.assert_lists(&Case { leg, sites }, list);
        }
    }
}

#[test]
fn no_site() {
    let leg = Leg::new((0, 0), (10, 0));
    let sites = Vec::new();
    Probe::new(27).assert_lists(&Case { leg, sites }, Vec::new());
}
