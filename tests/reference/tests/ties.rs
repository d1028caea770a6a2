//! The tie rule of document 02, C-11: "Of sites that tie along the whole leg, one on the right now
//! comes before others; then the lower number."

use reference::book::Book;
use reference::command::{add, list, print, stand};
use reference::fraction::Fraction;
use reference::grid::{Leg, Position, Site};
use reference::hull;
use reference::layout::{Case, small_cases};
use reference::random::Random;
use reference::record::Record::{Accepted, List};
use reference::split::{
    Entry, Rule, TieRule, broken_rule, name_at, on_the_right, side, split_list, split_list_by,
};
use reference::ties::{
    TIES, left_first, mirror_image, not_left_first, number_alone, renamed,
    right_of_the_way_back_first, right_then_higher, side_decides, south_first, tie, way_back,
};

/// The sites in this order, the other way round, and in random ones.
fn orders(random: &mut Random, sites: &[Site]) -> Vec<Vec<Site>> {
    let mut orders = vec![sites.to_vec(), sites.iter().rev().copied().collect()];
    for _ in 0..4 {
        let mut shuffled = sites.to_vec();
        random.shuffle(&mut shuffled);
        orders.push(shuffled);
    }
    orders
}

/// The list by the definition, by its rules, by the hull, and by 4C and 50.
fn assert_names(leg: Leg, sites: &[Site], number: u16, what: &str) {
    let expected = [Entry::new(number, 0, 1)];
    assert_eq!(split_list(&leg, sites), expected, "{what}");
    assert_eq!(hull::split_list(&leg, sites), expected, "{what}");
    for site in sites {
        let broken = broken_rule(&leg, sites, &[Entry::new(site.number, 0, 1)]);
        let rule = (site.number != number).then_some(Rule::FirstOfNearest);
        assert_eq!(broken, rule, "{what}: {site:?}");
    }
    let mut commands = vec![stand(leg)];
    commands.extend(sites.iter().copied().map(add));
    commands.extend([list(leg), print()]);
    let answers = Book::new().records(&commands);
    let (changes, lists) = answers.split_at(1 + sites.len());
    assert!(changes.iter().all(|answer| *answer == Accepted));
    assert_eq!(lists, vec![List(expected.to_vec()); 2], "{what}");
}

#[test]
fn ties_to_try() {
    let mut random = Random::new(301);
    for case in TIES {
        let first = case.sites[0].position;
        assert!(case.sites.iter().all(|p| tie(&case.leg, p.position, first)));
        for sites in orders(&mut random, case.sites) {
            assert_names(case.leg, &sites, case.there, case.what);
            assert_names(way_back(&case.leg), &sites, case.back, case.what);
        }
    }
}

/// A compass: from the middle, legs in eight directions and who is on the right of each.
#[test]
fn the_right_of_a_leg_in_every_direction() {
    let round = [
        (0, 9),
        (9, 9),
        (9, 0),
        (9, -9),
        (0, -9),
        (-9, -9),
        (-9, 0),
        (-9, 9),
    ];
    let at = |k: usize| Position::new(40 + round[k % 8].0, round[k % 8].1 - 50);
    let s = Position::new(40, -50);
    for k in 0..8 {
        let leg = Leg { s, e: at(k) };
        // Clockwise: three on the right, one behind, three on the left.
        let right = (0..8).map(|turn| on_the_right(&leg, at(k + turn)));
        let expected = [false, true, true, true, false, false, false, false];
        assert!(right.eq(expected), "{leg:?}");
    }
    assert!((0..8).all(|k| !on_the_right(&Leg { s, e: s }, at(k))));
}

#[test]
fn the_definition_in_numbers() {
    let leg = Leg::new((-12000, -12000), (12000, 12000));
    assert_eq!(side(&leg, Position::new(12000, -12000)), -576_000_000);
    assert_eq!(side(&leg, Position::new(-12000, 12000)), 576_000_000);
    assert_eq!(side(&leg, Position::new(7, 7)), 0);
    assert_eq!(side(&leg, Position::new(7, 6)), -24_000);
    let leg = Leg::new((1, 2), (4, 4));
    assert_eq!(side(&leg, Position::new(5, -3)), 3 * -5 - 2 * 4);
}

#[test]
fn a_mirror_image_ties_and_is_on_the_other_side() {
    let mut met = 0;
    for Case { leg, sites } in small_cases(302, 1_000) {
        for p in sites.iter().map(|site| site.position) {
            let Some(image) = mirror_image(&leg, p) else {
                continue;
            };
            assert!(tie(&leg, p, image), "{leg:?} {p:?} {image:?}");
            assert_eq!(side(&leg, image), -side(&leg, p), "{leg:?} {p:?}");
            assert_eq!(mirror_image(&leg, image), Some(p));
            assert_eq!(image == p, side(&leg, p) == 0);
            met += usize::from(image != p);
        }
    }
    assert!(met >= 5_000, "{met}");
}

/// On a leg with a length, what ties with a position is the position or its mirror image.
#[test]
fn nothing_else_ties() {
    let mut ties = 0;
    for Case { leg, sites } in small_cases(303, 1_000) {
        for (p, q) in sites.iter().zip(&sites[1..]) {
            let (p, q) = (p.position, q.position);
            if leg.s != leg.e {
                let expected = p == q || mirror_image(&leg, p) == Some(q);
                assert_eq!(tie(&leg, p, q), expected, "{leg:?} {p:?} {q:?}");
                ties += usize::from(expected && p != q);
            }
        }
    }
    assert!(ties >= 1_000, "{ties}");
}

#[test]
fn turning_the_leg_round_swaps_the_sides() {
    let mut met = [0; 3];
    for Case { leg, sites } in small_cases(304, 1_000) {
        let back = way_back(&leg);
        for p in sites.iter().map(|site| site.position) {
            let (there, back) = (on_the_right(&leg, p), on_the_right(&back, p));
            assert!(!(there && back), "{leg:?} {p:?}");
            assert_eq!(!there && !back, side(&leg, p) == 0, "{leg:?} {p:?}");
            met[usize::from(there) + 2 * usize::from(back)] += 1;
        }
    }
    assert!(met.iter().all(|times| *times >= 10_000), "{met:?}");
}

/// How a leg lies.
fn slope(leg: &Leg) -> &'static str {
    let (east, north) = (leg.e.east - leg.s.east, leg.e.north - leg.s.north);
    match (east.abs(), north.abs()) {
        (0, 0) => "none",
        (0, _) | (_, 0) => "axis",
        (east, north) if east == north => "diagonal",
        _ => "other",
    }
}

/// Cases in which numbers alone would name others; how many with this slope.
fn sided(seed: u64, each: usize) -> (Vec<Case>, impl Fn(&str) -> usize) {
    let decides = |case: &Case| {
        let list = split_list(&case.leg, &case.sites);
        side_decides(&case.leg, &case.sites, &list)
    };
    let cases: Vec<Case> = small_cases(seed, each).filter(decides).collect();
    let slopes: Vec<&str> = cases.iter().map(|case| slope(&case.leg)).collect();
    let of = move |slope: &str| slopes.iter().filter(|s| **s == slope).count();
    (cases, of)
}

/// The rule read once more: each listed site against each that ties with it along the whole leg.
#[test]
fn no_site_that_ties_comes_before_the_listed_one() {
    let (cases, of) = sided(305, 4_000);
    for Case { leg, sites } in &cases {
        for entry in split_list(leg, sites) {
            let listed = sites.iter().find(|site| site.number == entry.site).unwrap();
            let right = |site: &Site| on_the_right(leg, site.position);
            for other in sites.iter().filter(|site| site.number != entry.site) {
                if tie(leg, other.position, listed.position) {
                    assert!(right(listed) || !right(other), "{leg:?} {sites:?}");
                    let alike = right(listed) == right(other);
                    assert!(!alike || listed.number < other.number, "{leg:?} {sites:?}");
                }
            }
        }
    }
    let met = ["axis", "diagonal", "other", "none"].map(of);
    println!("lists in which the side decides: {met:?}");
    // On a leg of no length there is no side.
    assert!(met[..3].iter().all(|times| *times >= 500) && met[3] == 0);
}

/// Rules whose lists are compared with this one's.
const OTHERS: [TieRule; 5] = [
    number_alone,
    left_first,
    right_of_the_way_back_first,
    south_first,
    right_then_higher,
];

#[test]
fn starts_do_not_depend_on_the_tie_rule() {
    let mut differ = [0; OTHERS.len()];
    for Case { leg, sites } in small_cases(306, 1_500) {
        let list = split_list(&leg, &sites);
        for (rule, differ) in OTHERS.into_iter().zip(&mut differ) {
            let other = split_list_by(rule, &leg, &sites);
            assert!(
                other
                    .iter()
                    .map(|e| e.start)
                    .eq(list.iter().map(|e| e.start))
            );
            assert_eq!(
                other,
                renamed(&leg, &sites, &list, rule),
                "{leg:?} {sites:?}"
            );
            *differ += usize::from(other != list);
        }
    }
    println!("lists that another rule names otherwise: {differ:?}");
    assert!(differ.iter().all(|times| *times >= 1_000));
}

#[test]
fn without_ties_along_the_whole_leg_the_side_does_not_matter() {
    let mut met = 0;
    for Case { leg, sites } in small_cases(307, 2_000) {
        let ties = |(i, p): (usize, &Site)| {
            let before = &sites[..i];
            before.iter().any(|q| tie(&leg, p.position, q.position))
        };
        if !sites.iter().enumerate().any(ties) {
            let list = split_list(&leg, &sites);
            for rule in OTHERS {
                assert_eq!(split_list_by(rule, &leg, &sites), list, "{leg:?} {sites:?}");
            }
            met += usize::from(sites.len() > 1);
        }
    }
    println!("cases of two sites and more without such a tie: {met}");
    assert!(met >= 5_000);
}

/// Sites on the line tie along the whole leg with none but those at their own position.
#[test]
fn whether_the_line_counts_as_right_does_not_matter() {
    let mut met = 0;
    for Case { leg, sites } in small_cases(308, 2_000) {
        let list = split_list(&leg, &sites);
        assert_eq!(split_list_by(not_left_first, &leg, &sites), list);
        let on_line = |entry: &Entry| {
            let listed = sites.iter().find(|site| site.number == entry.site);
            side(&leg, listed.unwrap().position) == 0
        };
        met += usize::from(list.iter().any(on_line));
    }
    assert!(met >= 2_000, "{met}");
}

/// Starts count from the other end, and each name is that of a site that ties.
#[test]
fn the_way_back_names_sites_that_tie() {
    let (cases, _) = sided(309, 2_000);
    let mut named_otherwise = 0;
    for Case { leg, sites } in &cases {
        let position = |number: u16| sites.iter().find(|s| s.number == number).unwrap().position;
        let (there, back) = (split_list(leg, sites), split_list(&way_back(leg), sites));
        assert_eq!(there.len(), back.len());
        for (entry, other) in there.iter().zip(back.iter().rev()) {
            assert!(tie(leg, position(entry.site), position(other.site)));
            named_otherwise += usize::from(entry.site != other.site);
        }
        for (entry, other) in there[1..].iter().zip(back[1..].iter().rev()) {
            let Fraction {
                numerator,
                denominator,
            } = entry.start;
            let from_e = Fraction::new(denominator - numerator, denominator);
            assert_eq!(other.start, from_e, "{leg:?} {sites:?}");
        }
    }
    assert!(named_otherwise >= cases.len() / 2);
}

/// The case with every position put elsewhere.
fn put(case: &Case, place: impl Fn(Position) -> Position) -> Case {
    let Case { leg, sites } = case;
    let moved = |site: &Site| Site {
        position: place(site.position),
        ..*site
    };
    Case {
        leg: Leg {
            s: place(leg.s),
            e: place(leg.e),
        },
        sites: sites.iter().map(moved).collect(),
    }
}

/// A quarter turn of the grid keeps right and left; a mirror swaps them.
#[test]
fn turning_the_grid_changes_no_list_and_a_mirror_swaps_the_sides() {
    let (cases, _) = sided(310, 2_000);
    let lists = |Case { leg, sites }: &Case| {
        let list = split_list(leg, sites);
        assert_eq!(hull::split_list(leg, sites), list);
        list
    };
    for case in &cases {
        let list = lists(case);
        let quarter = put(case, |p| Position::new(-p.north, p.east));
        assert_eq!(lists(&quarter), list, "{case:?}");
        let half = put(&quarter, |p| Position::new(-p.north, p.east));
        assert_eq!(lists(&half), list, "{case:?}");
        let mirrored = put(case, |p| Position::new(p.east, -p.north));
        let Case { leg, sites } = &mirrored;
        assert_eq!(split_list_by(left_first, leg, sites), list, "{case:?}");
        assert_ne!(lists(&mirrored), list, "{case:?}");
    }
    assert!(cases.len() >= 1_000);
}

/// The mirror image of each listed site, with a higher number.
#[test]
fn a_mirror_image_takes_over_on_the_right_and_nowhere_else() {
    let (mut taken_over, mut not) = (0, 0);
    for Case { leg, sites } in small_cases(311, 1_000) {
        let list = split_list(&leg, &sites);
        let held = |number: &u16| sites.iter().any(|site| site.number == *number);
        let number = (1..=u16::MAX).rfind(|number| !held(number)).unwrap();
        for entry in list.iter().filter(|entry| entry.site < number) {
            let listed = sites.iter().find(|site| site.number == entry.site).unwrap();
            let Some(position) = mirror_image(&leg, listed.position) else {
                continue;
            };
            let more = [&sites[..], &[Site { number, position }]].concat();
            let after = split_list(&leg, &more);
            if on_the_right(&leg, position) {
                assert_eq!(
                    name_at(&after, entry.start),
                    Some(number),
                    "{leg:?} {more:?}"
                );
                taken_over += 1;
            } else {
                assert_eq!(after, list, "{leg:?} {more:?}");
                not += 1;
            }
        }
    }
    println!("taken over {taken_over}, not {not}");
    assert!(taken_over >= 500 && not >= 500);
}
