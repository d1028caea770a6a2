//! The definition and the hull give the same lists, and `is_split_list` takes no others.

use reference::book::{Book, FEW_SITES};
use reference::fraction::Fraction;
use reference::grid::{HALF_WIDTH, Leg, MOST_SITES, Site, spread};
use reference::hull;
use reference::layout::{Case, LAYOUTS, Layout, case, small_cases};
use reference::random::Random;
use reference::split::{Entry, Rule, broken_rule, end, is_split_list, split_list};
use reference::ties::side_decides;

fn assert_same(Case { leg, sites }: &Case) -> Vec<Entry> {
    let list = split_list(leg, sites);
    assert_eq!(hull::split_list(leg, sites), list, "{leg:?} {sites:?}");
    assert_eq!(broken_rule(leg, sites, &list), None, "{leg:?} {sites:?}");
    list
}

#[test]
fn small_tables() {
    let (mut compared, mut sided) = (0, 0);
    let mut of_length = [0; 10];
    for case in small_cases(1, 20_000) {
        let list = assert_same(&case);
        sided += usize::from(side_decides(&case.leg, &case.sites, &list));
        of_length[list.len()] += 1;
        compared += 1;
    }
    println!("small tables compared: {compared}; lists by length: {of_length:?}");
    println!("lists in which the side decides: {sided}");
    assert!(compared >= 140_000);
    // The cases are no use if the lists are all short, or if numbers alone name the same sites.
    assert!(of_length[1..].iter().all(|lists| *lists >= 1_000));
    assert!(sided >= 14_000);
}

#[test]
fn middling_tables() {
    let mut random = Random::new(2);
    let (mut compared, mut sided) = (0, 0);
    for count in (10..=24).cycle().take(150) {
        for layout in LAYOUTS {
            let case = case(&mut random, layout, count);
            let list = assert_same(&case);
            sided += usize::from(side_decides(&case.leg, &case.sites, &list));
            compared += 1;
        }
    }
    println!("middling tables compared: {compared}; the side decides: {sided}");
    assert!(compared >= 1_000 && sided >= 200);
}

#[test]
fn full_tables() {
    let mut random = Random::new(3);
    for layout in LAYOUTS {
        let Case { leg, sites } = case(&mut random, layout, MOST_SITES);
        let list = hull::split_list(&leg, &sites);
        assert_eq!(split_list(&leg, &sites), list, "{layout:?}");
        let mirrored = matches!(layout, Layout::Mirrored | Layout::MirroredWide);
        assert!(!mirrored || side_decides(&leg, &sites, &list), "{layout:?}");
    }
}

#[test]
fn a_list_as_long_as_the_table() {
    let beside_the_leg = |number: u16| {
        let k = i64::from(number);
        Site::new(number, spread(k), k % 5)
    };
    let sites: Vec<Site> = (1..=512).map(beside_the_leg).collect();
    let leg = Leg::new((-HALF_WIDTH, 2), (HALF_WIDTH, 3));
    let list = hull::split_list(&leg, &sites);
    assert_eq!(list.len(), MOST_SITES);
    assert_eq!(split_list(&leg, &sites), list);
}

#[test]
fn a_table_without_sites() {
    let leg = Leg::new((0, 0), (10, 0));
    assert_eq!(split_list(&leg, &[]), []);
    assert_eq!(hull::split_list(&leg, &[]), []);
    assert!(is_split_list(&leg, &[], &[]));
    let entry = [Entry::new(1, 0, 1)];
    assert!(!is_split_list(&leg, &[], &entry));
}

#[test]
fn the_order_of_the_sites_does_not_matter() {
    let mut random = Random::new(4);
    let mut compared = 0;
    for Case { leg, sites } in small_cases(5, 900) {
        let list = split_list(&leg, &sites);
        let mut turned = sites.clone();
        turned.reverse();
        let mut shuffled = sites;
        random.shuffle(&mut shuffled);
        for order in [turned, shuffled] {
            assert_eq!(split_list(&leg, &order), list, "{leg:?} {order:?}");
            assert_eq!(hull::split_list(&leg, &order), list, "{leg:?} {order:?}");
            compared += 1;
        }
    }
    println!("orders compared: {compared}");
    assert!(compared >= 10_000);
}

#[test]
fn the_book_lists_alike_around_its_change_to_the_hull() {
    let mut random = Random::new(6);
    for count in FEW_SITES - 1..=FEW_SITES + 2 {
        for layout in LAYOUTS {
            let Case { leg, sites } = case(&mut random, layout, count);
            let mut book = Book::new();
            book.lines = sites.iter().map(|s| (s.number, s.position)).collect();
            assert_eq!(book.split_list(&leg), split_list(&leg, &sites));
        }
    }
}

/// Applies a change to the list and asserts that just this rule finds it.
fn assert_breaks(case: &Case, list: &[Entry], rule: Rule, change: impl FnOnce(&mut Vec<Entry>)) {
    let mut changed = list.to_vec();
    change(&mut changed);
    let broken = broken_rule(&case.leg, &case.sites, &changed);
    assert_eq!(broken, Some(rule), "{case:?} {changed:?}");
}

/// Halfway, in the mediant's sense, between an entry's start and its end.
fn inside(list: &[Entry], i: usize) -> Fraction {
    list[i].start.mediant(end(list, i)).reduced()
}

/// Changes at entry i that every list allows.
fn break_entry(case: &Case, list: &[Entry], i: usize, factor: u64) {
    let Entry { site, start } = list[i];
    assert_breaks(case, list, Rule::StartReduced, |list| {
        list[i].start = Fraction::new(start.numerator * factor, start.denominator * factor);
    });
    assert_breaks(case, list, Rule::NeighboursDiffer, |changed| {
        let start = inside(list, i);
        changed.insert(i + 1, Entry { site, start });
    });
    let others = case.sites.iter().map(|site| site.number);
    for other in others.filter(|other| *other != site) {
        let beside = [i.wrapping_sub(1), i + 1];
        let repeats = beside
            .iter()
            .any(|j| list.get(*j).is_some_and(|e| e.site == other));
        let rule = if repeats {
            Rule::NeighboursDiffer
        } else {
            Rule::FirstOfNearest
        };
        assert_breaks(case, list, rule, |list| list[i].site = other);
    }
    let absent = (1..).find(|number| case.sites.iter().all(|site| site.number != *number));
    let absent = absent.expect("some number is not held");
    let rule = Rule::FirstOfNearest;
    assert_breaks(case, list, rule, |list| list[i].site = absent);
}

/// Changes at an entry that is not the first.
fn break_later_entry(case: &Case, list: &[Entry], i: usize) {
    let rule = Rule::FirstOfNearest;
    let (late, early) = (inside(list, i), inside(list, i - 1));
    assert_breaks(case, list, rule, |list| list[i].start = late);
    assert_breaks(case, list, rule, |list| list[i].start = early);
    assert_breaks(case, list, rule, |list| {
        list.remove(i);
    });
    let earlier = list[i - 1].start;
    assert_breaks(case, list, Rule::StartsRise, |list| list[i].start = earlier);
}

#[test]
fn every_changed_list_is_rejected() {
    let mut lists = 0;
    for case in small_cases(7, 600) {
        let list = split_list(&case.leg, &case.sites);
        for i in 0..list.len() {
            break_entry(&case, &list, i, 2 + i as u64 % 3);
            if i > 0 {
                break_later_entry(&case, &list, i);
            }
        }
        let late = inside(&list, 0);
        assert_breaks(&case, &list, Rule::FirstStartZero, |list| {
            list[0].start = late
        });
        assert_breaks(&case, &list, Rule::FirstStartZero, |list| {
            list.remove(0);
        });
        assert_breaks(&case, &list, Rule::StartBelowOne, |list| {
            let start = Fraction::ONE;
            list.push(Entry {
                site: case.sites[0].number,
                start,
            });
        });
        lists += 1;
    }
    println!("lists changed in every way: {lists}");
    assert!(lists >= 4_000);
}
