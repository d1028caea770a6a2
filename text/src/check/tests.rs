//! The verdict is the service's on every table tried, and each rule is told with its byte.

mod standing;

use super::{earlier_list, faults, reason};
use crate::earlier::renewed;
use crate::grid::grouped;
use crate::lists::stands;
use crate::service::{BROKEN_STANDING, BROKEN_TABLE, Service};
use binding::layout::{
    CORNER_WORDS, EARLIER_HALF_WIDTH, ENTRIES_LISTED, FAR_EDGE, FREE_NODES, HALF_WIDTH,
    HEADER_KEPT, LAYOUT, LAYOUT_NUMBER, LEG_FLAG, LEVELS, MOST_LEVELS, REMEMBERED, ROOT,
    SITES_HELD, STACK_END, TABLE_LEN, TOUR, TOUR_FLAG, entry_at, free_at, is_earlier, listed_at,
    node_at, number, put_number, put_word, record_at, records, word,
};
use reference::book::Book;
use reference::command::{add, stand};
use reference::grid::{Leg, MOST_SITES, Position, Site};
use reference::hull;
use reference::random::Random;
use reference::ties::{number_alone, renamed};
use service::bytes;
use service::damage::{aged, flipped, regions, stored_by};
use service::draw::Pool;
use service::shape::{self, Dealing};
use service::table::{Rule, broken_rules, meaning};

fn told(table: &[u8]) -> Vec<String> {
    let faults = faults(table).unwrap();
    faults.iter().map(ToString::to_string).collect()
}

/// The number that the table is refused with, none where it is sound: three programs say the same.
fn verdict(table: &[u8]) -> Option<u32> {
    let told = told(table);
    let refused = Service::take_up(table.to_vec()).err();
    assert_eq!(refused, reason(&faults(table).unwrap()), "{told:?}");
    assert_eq!(refused, number_of(&broken_rules(table)), "{told:?}");
    assert_eq!(refused.is_none(), told.is_empty(), "{told:?}");
    refused
}

/// Of a table of the right length that breaks these rules.
fn number_of(broken: &[Rule]) -> Option<u32> {
    let is_standing = |rule: &Rule| matches!(rule, Rule::LegOnGrid | Rule::StandingList);
    match broken {
        [] => None,
        _ if broken.iter().all(is_standing) => Some(BROKEN_STANDING),
        _ => Some(BROKEN_TABLE),
    }
}

/// Whether the table is sound.
fn agreed(table: &[u8]) -> bool {
    verdict(table).is_none()
}

/// A sound table of any shape.
fn sound(random: &mut Random, count: usize) -> Vec<u8> {
    let pool = Pool::new(random, count.max(1));
    let mut additions = pool.additions(random);
    additions.truncate(count);
    let mut book = Book::new();
    book.records(&additions);
    if !random.once_in(4) {
        book.records(&[stand(pool.leg(random))]);
    }
    match random.between(1, 3) {
        1 => shape::table(&book, &mut Dealing::Tallest),
        _ => shape::table(&book, &mut Dealing::Any(random)),
    }
}

/// The sound table with a tour under way, which remembers a site if one is held and sometimes none.
fn toured(random: &mut Random, table: &[u8]) -> Vec<u8> {
    let mut toured = table.to_vec();
    put_word(&mut toured, TOUR_FLAG, 1);
    for at in CORNER_WORDS {
        put_number(&mut toured, at, random.index(usize::from(FAR_EDGE) + 1));
    }
    let held: Vec<u16> = records(table).map(|record| record.number).collect();
    if !held.is_empty() && !random.once_in(4) {
        put_word(&mut toured, REMEMBERED, random.pick(&held));
    }
    toured
}

/// A sound table of any shape, with a tour or without.
fn any_sound(random: &mut Random, count: usize) -> Vec<u8> {
    let table = sound(random, count);
    match random.once_in(2) {
        true => toured(random, &table),
        false => table,
    }
}

#[test]
fn sound_tables_of_every_shape() {
    let mut random = Random::new(201);
    for count in [0, 1, 2, 8, 9, 30, 100, 300, MOST_SITES].repeat(3) {
        let table = sound(&mut random, count);
        assert!(agreed(&table));
        assert!(agreed(&toured(&mut random, &table)));
    }
}

#[test]
fn a_flipped_bit_in_every_field() {
    let mut random = Random::new(202);
    let (mut refused, mut standing, mut taken) = (0, 0, 0);
    for count in [0, 1, 3, 9, 12, 40] {
        let table = any_sound(&mut random, count);
        for region in regions(&table) {
            for at in region.bytes {
                let bits = if region.name == "stack" { 1 } else { 8 };
                for _ in 0..bits {
                    *match verdict(&flipped(&table, at, random.index(8))) {
                        None => &mut taken,
                        Some(BROKEN_STANDING) => &mut standing,
                        Some(_) => &mut refused,
                    } += 1;
                }
            }
        }
    }
    // A leg that moves a little may have the same list, and a corner may stand anywhere.
    let told = format!("{refused} {standing} {taken}");
    assert!(refused > 10_000 && standing > 100 && taken > 10, "{told}");
}

#[test]
fn a_flipped_bit_in_large_tables() {
    let mut random = Random::new(203);
    for count in [200, MOST_SITES] {
        let table = any_sound(&mut random, count);
        let regions = regions(&table);
        for _ in 0..600 {
            let bytes = regions[random.index(regions.len())].bytes.clone();
            if !bytes.is_empty() {
                let at = bytes.start + random.index(bytes.len());
                agreed(&flipped(&table, at, random.index(8)));
            }
        }
    }
}

#[test]
fn words_exchanged_and_rubbish() {
    let mut random = Random::new(204);
    for nth in 0..4_000 {
        let count = random.index(30);
        let mut table = any_sound(&mut random, count);
        for _ in 0..1 + random.index(3) {
            let value = match random.between(1, 4) {
                1 => random.index(10),
                2 => random.index(266),
                3 => usize::from(HALF_WIDTH) - 10 + random.index(20),
                _ => number(&table, 2 * random.index(STACK_END / 2)),
            };
            let at = match random.between(1, 3) {
                1 => 2 * random.index(80),
                2 => LEVELS + 2 * random.index(6),
                _ => node_at(number(&table, ROOT).min(263)) + 2 * random.index(49),
            };
            put_number(&mut table, at, value);
        }
        if nth % 100 == 0 {
            table
                .iter_mut()
                .for_each(|byte| *byte ^= random.between(0, 255) as u8);
        }
        agreed(&table);
    }
    for byte in [1, 6, 255] {
        assert!(!agreed(&[byte; TABLE_LEN]));
    }
}

/// The standing list before 0.9.0, by the second program.
fn list_before(table: &[u8]) -> Vec<u16> {
    let (sites, Some(leg)) = (bytes::sites(table), bytes::leg(table)) else {
        return Vec::new();
    };
    let list = hull::split_list(&leg, &sites);
    let list = renamed(&leg, &sites, &list, number_alone);
    list.into_iter().map(|entry| entry.site).collect()
}

/// A table that this release refuses for its list alone.
fn listed_before(random: &mut Random, count: usize) -> Vec<u8> {
    loop {
        let table = sound(random, count);
        let before = stored_by(number_alone, &table);
        if before != table {
            return before;
        }
    }
}

/// Whether --dump takes it.
fn dumped(table: &[u8]) -> bool {
    Service::take_up(renewed(table).unwrap()).is_ok()
}

/// Whether an earlier release took it, a table of this layout: the checker and its list say so.
fn was_sound(table: &[u8]) -> bool {
    let broken = broken_rules(table);
    let without_tour = table[TOUR].iter().all(|byte| *byte == 0);
    broken.iter().all(|rule| *rule == Rule::StandingList)
        && without_tour
        && stands(table, &list_before(table))
}

/// Whether a table of this layout is dumped; all that is said of it agrees.
fn agreed_on_lists(table: &[u8]) -> bool {
    let (sound, was_sound) = (agreed(table), was_sound(table));
    assert_eq!(dumped(table), sound || was_sound);
    let note = earlier_list(table).unwrap();
    let carries = note.is_some_and(|note| note.ends_with(": --dump carries the table over"));
    assert_eq!(carries, was_sound && !sound);
    sound || was_sound
}

#[test]
fn lists_of_earlier_releases_are_told_and_dumped() {
    let mut random = Random::new(206);
    for count in [2, 3, 9, 40, 200, MOST_SITES].repeat(4) {
        let table = listed_before(&mut random, count);
        assert!(!agreed(&table) && agreed_on_lists(&table));
        let told = told(&table);
        assert!(told.iter().all(|line| line.starts_with("standing list, ")));
        assert_eq!(
            earlier_list(&table).unwrap().unwrap(),
            "the standing list is that of a release before 0.9.0: --dump carries the table over"
        );
        // Where something else is broken, it is not carried over.
        let kept = flipped(&table, HEADER_KEPT.start, 0);
        assert_eq!(
            earlier_list(&kept).unwrap().unwrap(),
            "the standing list is that of a release before 0.9.0"
        );
        assert!(!agreed_on_lists(&kept));
        // Nor with a tour, which came later.
        let toured = toured(&mut random, &table);
        assert!(!agreed_on_lists(&toured) && renewed(&toured).unwrap() == toured);
        let sound = renewed(&table).unwrap();
        assert!(agreed(&sound) && renewed(&sound).unwrap() == sound);
        assert_eq!(earlier_list(&sound).unwrap(), None);
    }
}

#[test]
fn a_flipped_bit_in_tables_with_an_earlier_list() {
    let mut random = Random::new(207);
    let (mut refused, mut taken) = (0, 0);
    for count in [2, 3, 9, 12, 40] {
        let table = listed_before(&mut random, count);
        for region in regions(&table) {
            for at in region.bytes {
                let bits = if region.name == "stack" { 1 } else { 4 };
                for _ in 0..bits {
                    let table = flipped(&table, at, random.index(8));
                    // With the number of an earlier layout it may be one of that.
                    if !is_earlier(&table) {
                        let agreed = agreed_on_lists(&table);
                        *if agreed { &mut taken } else { &mut refused } += 1;
                    }
                }
            }
        }
    }
    assert!(refused > 4_000 && taken > 10, "{refused} {taken}");
}

/// A table that this release refuses for its list alone, with all of it on the earlier grid.
fn listed_on_earlier_grid(random: &mut Random, count: usize) -> Vec<u8> {
    let on_grid = |p: Position| p.east.abs().max(p.north.abs()) <= EARLIER_HALF_WIDTH.into();
    loop {
        let table = listed_before(random, count);
        let leg = bytes::leg(&table).expect("a list is that of a leg");
        let sites = bytes::sites(&table).into_iter().map(|site| site.position);
        if sites.chain([leg.s, leg.e]).all(on_grid) {
            return table;
        }
    }
}

/// Whether a table of an earlier layout was sound there: --check and --dump say the same.
fn agreed_on_earlier(table: &[u8]) -> bool {
    let told = told(table);
    assert!(told[0].starts_with("header: the number of an earlier layout: "));
    assert_eq!(verdict(table), Some(BROKEN_TABLE));
    assert_eq!(dumped(table), told.len() == 1, "{told:?}");
    assert_eq!(earlier_list(table).unwrap(), None);
    told.len() == 1
}

#[test]
fn earlier_layouts_have_lists_by_number() {
    let mut random = Random::new(208);
    for _ in 0..30 {
        let count = 2 + random.index(60);
        let before = listed_on_earlier_grid(&mut random, count);
        let sound = renewed(&before).unwrap();
        for layout in 0..LAYOUT_NUMBER {
            let (before, today) = (aged(&before, layout), aged(&sound, layout));
            assert!(agreed_on_earlier(&before) && !agreed_on_earlier(&today));
            assert!(!agreed_on_earlier(&toured(&mut random, &before)));
            assert_eq!(meaning(&renewed(&before).unwrap()), meaning(&sound));
            assert!(renewed(&today).unwrap() == today);
        }
    }
}

#[test]
fn a_flipped_bit_in_earlier_layouts() {
    let mut random = Random::new(209);
    let (mut refused, mut taken) = (0, 0);
    for (layout, count) in [(0, 3), (1, 3), (0, 12), (1, 40)] {
        let table = aged(&listed_on_earlier_grid(&mut random, count), layout);
        for region in regions(&table) {
            for at in region.bytes {
                let bits = if region.name == "stack" { 1 } else { 4 };
                for _ in 0..bits {
                    let table = flipped(&table, at, random.index(8));
                    if is_earlier(&table) {
                        let agreed = agreed_on_earlier(&table);
                        *if agreed { &mut taken } else { &mut refused } += 1;
                    }
                }
            }
        }
    }
    assert!(refused > 3_000 && taken > 10, "{refused} {taken}");
}

#[test]
fn bytes_that_no_rule_names() {
    let mut random = Random::new(205);
    let mut table = sound(&mut random, 40);
    table[STACK_END..6_896].fill(0xFF);
    let free = number(&table, free_at(3));
    table[node_at(free)..node_at(free) + 98].fill(0xFF);
    assert!(agreed(&table));
}

/// 40 sites on a line in five full leaves under one root, and a standing leg.
fn two_levels() -> Vec<u8> {
    let mut book = Book::new();
    let nth = |number: u16| add(Site::new(number, 3 * i64::from(number), 0));
    book.records(&(1..=40).map(nth).collect::<Vec<_>>());
    book.records(&[stand(Leg::new((0, 0), (100, 0)))]);
    shape::table(&book, &mut Dealing::Even)
}

/// What is told of that table after an edit, which gets the root and its first child.
fn edited(edit: impl Fn(&mut Vec<u8>, usize, usize)) -> Vec<String> {
    let mut table = two_levels();
    let root = number(&table, ROOT);
    let leaf = number(&table, entry_at(root, 0));
    assert_eq!((root, leaf), (263, 262));
    edit(&mut table, root, leaf);
    if table.len() == TABLE_LEN {
        assert!(!agreed(&table));
    }
    told(&table)
}

#[test]
fn rules_on_header_and_sites() {
    assert_eq!(
        edited(|t, _, _| t.push(0)),
        ["table: 32,769 bytes long, a table has 32,768"]
    );
    assert_eq!(HEADER_KEPT, 24..64);
    for at in HEADER_KEPT.step_by(2) {
        assert_eq!(
            edited(|t, _, _| put_word(t, at, 9)),
            [format!(
                "header: kept for later, byte {at}: 9 stands there, 0 belongs there"
            )]
        );
    }
    let earlier = "the number of an earlier layout: --dump reads such";
    let unknown = "the number of another layout: this release cannot read it";
    for number in [0, 1, 3, 256, 258, u16::MAX] {
        assert_ne!(number, LAYOUT_NUMBER);
        let what = if number < LAYOUT_NUMBER {
            earlier
        } else {
            unknown
        };
        let stands = grouped(number.into());
        assert_eq!(
            edited(|t, _, _| put_word(t, LAYOUT, number)),
            [format!(
                "header: {what}, byte 14: {stands} stands there, {LAYOUT_NUMBER} belongs there"
            )]
        );
    }
    let too_many = edited(|t, _, _| put_word(t, SITES_HELD, 513));
    assert_eq!(
        too_many[0],
        "header: a table holds at most 512 sites, byte 0: 513 stands there"
    );
    let cases = [
        (0, 0, "0 is no site's number, byte 104: 0 stands there"),
        (
            0,
            3,
            "the number is not above the one before, byte 104: 3 stands there",
        ),
        (
            2,
            24_001,
            "the easting is off the grid, 0 to 24,000 from its edge, byte 106: 24,001 stands there",
        ),
        (
            4,
            65_535,
            "the northing is off the grid, 0 to 24,000 from its edge, byte 108: 65,535 stands there",
        ),
        (6, 1, "kept for later: it is 0, byte 110: 1 stands there"),
    ];
    for (offset, value, what) in cases {
        let found = edited(|t, _, _| put_word(t, record_at(5) + offset, value));
        assert_eq!(found[0], format!("site record 5: {what}"));
    }
}

/// What is told of that table with these words for flag, easting, northing and remembered number.
fn with_tour(words: [u16; 4]) -> Vec<String> {
    edited(|t, _, _| {
        let places = [TOUR_FLAG, CORNER_WORDS[0], CORNER_WORDS[1], REMEMBERED];
        for (at, word) in places.into_iter().zip(words) {
            put_word(t, at, word);
        }
    })
}

#[test]
fn rules_on_the_tour() {
    let flag = "tour: 1 while a tour is under way, else 0, byte 16:";
    for number in [2, 256, 257] {
        let what = [format!("{flag} {number} stands there")];
        assert_eq!(with_tour([number, 12_000, 12_000, 7]), what);
        assert_eq!(with_tour([number, 24_001, 0, 999]), what);
    }
    let set = |name: &str, at: usize, number: &str| {
        format!(
            "tour: none is under way, but its {name} is set, byte {at}: {number} stands there, 0 belongs there"
        )
    };
    let (easting, northing) = ("easting of the last corner", "northing of the last corner");
    assert_eq!(with_tour([0, 1, 0, 0]), [set(easting, 18, "1")]);
    assert_eq!(with_tour([0, 0, 12_000, 0]), [set(northing, 20, "12,000")]);
    // Though it is held.
    assert_eq!(with_tour([0, 0, 0, 7]), [set("remembered site", 22, "7")]);
    assert_eq!(
        with_tour([0, 24_001, 256, 65_535]),
        [
            set(easting, 18, "24,001"),
            set(northing, 20, "256"),
            set("remembered site", 22, "65,535")
        ]
    );
    let off = |name: &str, at: usize, number: &str| {
        format!(
            "tour: the {name} is off the grid, 0 to 24,000 from its edge, byte {at}: {number} stands there"
        )
    };
    assert_eq!(
        with_tour([1, 24_001, 24_000, 0]),
        [off(easting, 18, "24,001")]
    );
    assert_eq!(with_tour([1, 0, 65_535, 40]), [off(northing, 20, "65,535")]);
    let unknown = "tour: the remembered site is not held, byte 22: 41 stands there";
    assert_eq!(with_tour([1, 0, 24_000, 41]), [unknown]);
    assert_eq!(
        with_tour([1, 24_001, 24_001, 41]),
        [
            off(easting, 18, "24,001"),
            off(northing, 20, "24,001"),
            unknown.into()
        ]
    );
}

#[test]
fn rules_on_the_standing_leg_and_list() {
    assert_eq!(
        edited(|t, _, _| put_word(t, LEG_FLAG, 2)),
        ["standing leg: 1 where a leg is set, else 0, byte 2: 2 stands there"]
    );
    assert_eq!(
        edited(|t, _, _| put_word(t, LEG_FLAG, 0))[0],
        "standing leg: no leg is set, but its easting of S is, byte 4: 12,000 stands there, 0 belongs there"
    );
    assert_eq!(
        edited(|t, _, _| put_word(t, 10, 24_001)),
        [
            "standing leg: the northing of E is off the grid, 0 to 24,000 from its edge, byte 10: 24,001 stands there"
        ]
    );
    let listed = number(&two_levels(), ENTRIES_LISTED);
    assert_eq!(
        edited(|t, _, _| put_number(t, ENTRIES_LISTED, listed + 1)),
        [format!(
            "standing list: the number of entries is not that of the leg's list, byte 12: {} stands there, {listed} belongs there",
            listed + 1
        )]
    );
    assert_eq!(
        edited(|t, _, _| put_word(t, listed_at(3), 40)),
        [
            "standing list, entry 3: not the site of the leg's list, byte 4,166: 40 stands there, 4 belongs there"
        ]
    );
}

#[test]
fn rules_on_entries_and_boxes() {
    let wider = edited(|t, root, _| put_word(t, entry_at(root, 3) + 4, 11_999));
    assert_eq!(
        wider,
        [
            "node 263, entry 3: box is wider than what lies under it, byte 32,712: 11,999 stands there, 12,000 belongs there"
        ]
    );
    let narrower = edited(|t, root, _| {
        let at = entry_at(root, 0) + 6;
        let less = word(t, at) - 1;
        put_word(t, at, less);
    });
    assert_eq!(
        narrower,
        [
            "node 263, entry 0: box is narrower than what lies under it, byte 32,678: 12,023 stands there, 12,024 belongs there"
        ]
    );
    let kept = edited(|t, _, leaf| put_word(t, entry_at(leaf, 7) + 10, 256));
    assert_eq!(
        kept,
        ["node 262, entry 7: kept for later, byte 32,668: 256 stands there, 0 belongs there"]
    );
    let wide = edited(|t, _, leaf| t[entry_at(leaf, 2) + 8] += 1);
    assert_eq!(
        wide[0],
        "node 262, entry 2: a leaf's box is a point, but its north is not its south, byte 32,606: 12,001 stands there"
    );
    let renumbered = edited(|t, _, leaf| put_word(t, entry_at(leaf, 3), 999));
    assert_eq!(
        renumbered,
        [
            "node 262, entry 3: no such site is held, byte 32,610: 999 stands there",
            "site record 3: the site is in no leaf entry, byte 88: 4 stands there",
        ]
    );
    let moved = edited(|t, _, leaf| {
        put_word(t, entry_at(leaf, 3) + 2, 12_013);
        put_word(t, entry_at(leaf, 3) + 6, 12_013);
    });
    assert_eq!(
        moved,
        [
            "node 262, entry 3: not the easting of the site's record, byte 32,612: 12,013 stands there"
        ]
    );
    let twice = edited(|t, _, leaf| {
        let (from, to) = (entry_at(leaf, 3), entry_at(leaf, 4));
        t.copy_within(from..from + 12, to);
    });
    assert_eq!(
        twice[0],
        "node 262, entry 4: the site is in another leaf entry, too, byte 32,622: 4 stands there"
    );
}

#[test]
fn rules_on_counts_levels_and_the_pool() {
    let nine = edited(|t, _, leaf| t[node_at(leaf)] = 9);
    assert_eq!(
        nine,
        ["node 262: a node has at most 8 entries, byte 32,572: 9 stands there"]
    );
    let two = edited(|t, _, leaf| t[node_at(leaf)] = 2);
    assert!(two.contains(
        &"node 262: too few entries, here at least 3, byte 32,572: 2 stands there".to_string()
    ));
    let one = edited(|t, root, _| t[node_at(root)] = 1);
    assert!(one.contains(
        &"node 263: too few entries, here at least 2, byte 32,670: 1 stands there".to_string()
    ));
    let seven = edited(|t, _, _| put_number(t, LEVELS, MOST_LEVELS + 1));
    assert!(
        seven
            .contains(&"tree: a tree has at most 6 levels, byte 5,184: 7 stands there".to_string())
    );
    let child = edited(|t, root, _| put_number(t, entry_at(root, 2), 264));
    assert!(child.contains(
        &"node 263, entry 2: no node has this id, ids are 0 to 263, byte 32,696: 264 stands there"
            .to_string()
    ));
    let again = edited(|t, root, leaf| put_number(t, entry_at(root, 2), leaf));
    assert!(again.contains(
        &"node 263, entry 2: the node was met before, byte 32,696: 262 stands there".to_string()
    ));
    let miscounted = edited(|t, _, _| put_number(t, FREE_NODES, 257));
    assert_eq!(
        miscounted,
        [
            "tree, free nodes: with the nodes of the tree there must be 264, byte 5,188: 257 stands there, 258 belongs there",
            "node 257: neither in the tree nor on the stack, byte 32,082: 0 stands there",
        ]
    );
    let twice = edited(|t, _, _| t.copy_within(free_at(1)..free_at(2), free_at(2)));
    assert_eq!(
        twice,
        [
            "stack, place 2: the node is on the stack twice, byte 5,194: 1 stands there",
            "node 2: neither in the tree nor on the stack, byte 7,092: 0 stands there",
        ]
    );
    let in_tree = edited(|t, _, leaf| put_number(t, free_at(0), leaf));
    assert_eq!(
        in_tree[0],
        "stack, place 0: the node is in the tree, so it is not free, byte 5,190: 262 stands there"
    );
    let stack = edited(|t, _, _| put_number(t, free_at(0), 300));
    assert_eq!(
        stack[0],
        "stack, place 0: no node has this id, ids are 0 to 263, byte 5,190: 300 stands there"
    );
}
