//! What document 01 says of every list: its length, its starts, closed stretches, and what one
//! addition or removal may change.

use reference::book::Book;
use reference::command::{add, print, remove, stand};
use reference::fraction::Fraction;
use reference::grid::{HALF_WIDTH, LARGEST_DENOMINATOR, Leg, MOST_SITES, Site};
use reference::hull;
use reference::layout::{Case, Layout, case, small_cases};
use reference::random::Random;
use reference::record::Record::{Accepted, List, Refused};
use reference::split::{
    Entry, a, b, deciding_fractions, end, name_at, split_list, squared_distance_at,
};
use std::collections::BTreeSet;

#[test]
fn a_list_has_at_most_as_many_entries_as_there_are_sites() {
    for Case { leg, sites } in small_cases(11, 2_000) {
        let list = split_list(&leg, &sites);
        assert!((1..=sites.len()).contains(&list.len()), "{list:?}");
    }
}

#[test]
fn a_site_is_listed_at_most_once() {
    for Case { leg, sites } in small_cases(12, 2_000) {
        let list = split_list(&leg, &sites);
        let named: BTreeSet<u16> = list.iter().map(|entry| entry.site).collect();
        assert_eq!(named.len(), list.len(), "{list:?}");
    }
}

#[test]
fn no_denominator_passes_the_largest() {
    let mut random = Random::new(13);
    let mut largest = 0;
    for count in [2, 3, 5, 9, 40, MOST_SITES].repeat(500) {
        for layout in [Layout::Corners, Layout::Wide] {
            let Case { leg, sites } = case(&mut random, layout, count);
            let list = hull::split_list(&leg, &sites);
            let denominators = list.iter().map(|entry| entry.start.denominator);
            largest = largest.max(denominators.max().expect("a site is listed"));
        }
    }
    println!("largest denominator met: {largest}");
    assert!(largest <= LARGEST_DENOMINATOR);
    // The corners come within a thousandth of it.
    assert!(largest > LARGEST_DENOMINATOR / 1000 * 999);
}

#[test]
fn the_largest_denominator_is_that_of_two_diagonals() {
    let leg = Leg::new((-HALF_WIDTH, -HALF_WIDTH), (HALF_WIDTH, HALF_WIDTH));
    let difference = b(&leg, leg.e) - b(&leg, leg.s);
    assert_eq!(difference.unsigned_abs(), LARGEST_DENOMINATOR);
}

#[test]
fn each_entry_is_nearest_on_its_closed_stretch() {
    let mut inner_starts = 0;
    for Case { leg, sites } in small_cases(14, 2_000) {
        let list = split_list(&leg, &sites);
        for (i, entry) in list.iter().enumerate() {
            let named = sites.iter().find(|site| site.number == entry.site);
            let named = named.expect("a held site is listed").position;
            let (start, end) = (entry.start, end(&list, i));
            for t in [start, start.mediant(end), end] {
                let distance = |site: &Site| squared_distance_at(&leg, t, site.position);
                let least = sites.iter().map(distance).min();
                assert_eq!(least, Some(squared_distance_at(&leg, t, named)));
            }
            inner_starts += usize::from(i > 0);
        }
    }
    assert!(inner_starts >= 5_000);
}

#[test]
fn nearer_means_a_smaller_a_less_t_times_b() {
    let mut random = Random::new(15);
    let mut ties = 0;
    for Case { leg, sites } in small_cases(16, 2_000) {
        let d = random.between(1, 12);
        let n = random.between(0, d);
        let t = Fraction::new(n.unsigned_abs(), d.unsigned_abs());
        let form = |p: &Site| {
            let (a, b) = (a(&leg, p.position), b(&leg, p.position));
            i128::from(d) * i128::from(a) - i128::from(n) * i128::from(b)
        };
        for (p, q) in sites.iter().zip(&sites[1..]) {
            let distance = |site: &Site| squared_distance_at(&leg, t, site.position);
            let order = distance(p).cmp(&distance(q));
            assert_eq!(order, form(p).cmp(&form(q)), "{leg:?} {t:?} {p:?} {q:?}");
            ties += usize::from(order.is_eq());
        }
    }
    assert!(ties >= 1_000);
}

/// What 50 prints; empty where it answers 21 06.
fn standing_list(book: &mut Book) -> Vec<Entry> {
    match &book.records(&[print()])[..] {
        [List(list)] => list.clone(),
        [Refused(6)] => vec![],
        answer => panic!("50 with a standing leg answered {answer:?}"),
    }
}

#[test]
fn an_addition_changes_names_only_to_the_new_site() {
    let (mut additions, mut changed) = (0, 0);
    for Case { leg, sites } in small_cases(17, 1_000) {
        let mut book = Book::new();
        assert_eq!(book.records(&[stand(leg)]), [Accepted]);
        for site in sites {
            let before = standing_list(&mut book);
            assert_eq!(book.records(&[add(site)]), [Accepted]);
            let after = standing_list(&mut book);
            for t in deciding_fractions(&before, &after) {
                let (old, new) = (name_at(&before, t), name_at(&after, t));
                assert!(new == old || new == Some(site.number), "at {t:?}");
            }
            additions += 1;
            changed += usize::from(before != after);
        }
    }
    println!("additions: {additions}, of them with a changed list: {changed}");
    assert!(changed >= 10_000 && additions - changed >= 10_000);
}

#[test]
fn a_removal_changes_names_only_where_the_old_site_stood() {
    let mut random = Random::new(18);
    let (mut removals, mut changed) = (0, 0);
    for Case { leg, mut sites } in small_cases(19, 1_000) {
        let mut book = Book::new();
        assert_eq!(book.records(&[stand(leg)]), [Accepted]);
        book.records(&sites.iter().map(|site| add(*site)).collect::<Vec<_>>());
        random.shuffle(&mut sites);
        for site in sites {
            let before = standing_list(&mut book);
            assert_eq!(book.records(&[remove(site.number)]), [Accepted]);
            let after = standing_list(&mut book);
            for t in deciding_fractions(&before, &after) {
                let (old, new) = (name_at(&before, t), name_at(&after, t));
                assert!(new == old || old == Some(site.number), "at {t:?}");
            }
            removals += 1;
            changed += usize::from(before != after);
        }
        assert!(book.lines.is_empty());
    }
    println!("removals: {removals}, of them with a changed list: {changed}");
    assert!(changed >= 10_000 && removals - changed >= 10_000);
}

#[test]
fn a_name_is_that_of_the_last_entry_whose_start_is_not_above() {
    let list = [
        Entry::new(4, 0, 1),
        Entry::new(9, 37, 100),
        Entry::new(2, 1, 2),
    ];
    let names = [
        (0, 1),
        (36, 100),
        (37, 100),
        (49, 100),
        (2, 4),
        (51, 100),
        (1, 1),
    ];
    let names = names.map(|(n, d)| name_at(&list, Fraction::new(n, d)));
    assert_eq!(names, [4, 4, 9, 9, 2, 2, 2].map(Some));
    assert_eq!(name_at(&[], Fraction::ONE), None);
}
