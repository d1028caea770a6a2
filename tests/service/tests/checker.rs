//! The checker of tables: it takes every legal shape, and each rule, broken alone, is named.

use reference::book::Book;
use reference::command::{add, begin, corner, stand};
use reference::grid::{Leg, MOST_SITES, Position, Site, WORK_LEN};
use reference::random::Random;
use service::bytes::{
    ENTRIES_LISTED, FAR_EDGE, FREE_NODES, HEADER_KEPT, LAYOUT, LAYOUT_NUMBER, LEG_FLAG, LEG_WORDS,
    LEVELS, RECORD_LEN, ROOT, SITE_ARRAY, SITES_HELD, TOUR, empty_table, entry_at, free_at,
    listed_at, node_at, number, put_number, put_word, record_at, word,
};
use service::draw::Pool;
use service::shape::{self, Dealing};
use service::table::{Rule, broken_rules, meaning, reason};
use service::{Model, Service};

const SHAPES: usize = 1_500;

/// A random book with this many sites, with a standing leg or without.
fn book(random: &mut Random, count: usize) -> Book {
    let pool = Pool::new(random, count);
    let mut book = Book::new();
    let additions = pool.additions(random);
    book.records(&additions);
    if random.once_in(2) {
        book.records(&[stand(pool.leg(random))]);
    }
    if random.once_in(2) {
        let Leg { s, e } = pool.leg(random);
        book.records(&[begin(s), corner(e)]);
    }
    assert_eq!(book.lines.len(), count);
    book
}

#[test]
fn every_legal_shape_breaks_no_rule_and_means_its_book() {
    let mut random = Random::new(61);
    let mut by_levels = [0; 7];
    let (mut most_nodes, mut with_list, mut in_a_tour) = (0, 0, 0);
    for nth in 0..SHAPES {
        let count = match nth % 3 {
            0 => random.index(20) + 1,
            1 => random.index(MOST_SITES) + 1,
            _ => MOST_SITES - random.index(27),
        };
        let book = book(&mut random, count);
        let table = match nth % 5 {
            0 => shape::table(&book, &mut Dealing::Even),
            1 => shape::table(&book, &mut Dealing::Tallest),
            _ => shape::table(&book, &mut Dealing::Any(&mut random)),
        };
        let meaning = meaning(&table).expect("a legal shape");
        assert_eq!(meaning.book, book);
        by_levels[meaning.levels] += 1;
        most_nodes = most_nodes.max(meaning.nodes);
        with_list += usize::from(!meaning.listed.is_empty());
        in_a_tour += usize::from(meaning.book.tour.is_some());
    }
    println!("by levels: {by_levels:?}; most nodes: {most_nodes}; with a list: {with_list}");
    assert!(in_a_tour >= SHAPES / 3, "{in_a_tour}");
    assert!(by_levels[1..].iter().all(|times| *times >= SHAPES / 100));
    assert!(most_nodes >= 240 && with_list >= SHAPES / 3);
}

#[test]
fn an_empty_table_means_an_empty_book() {
    let meaning = meaning(&empty_table()).unwrap();
    assert_eq!(meaning.book, Book::new());
    assert_eq!((meaning.levels, meaning.nodes), (0, 0));
    assert!(meaning.listed.is_empty());
}

#[test]
fn one_site_and_a_leg_stand_where_the_layout_says() {
    let mut table = vec![0; 32_768];
    Model.lay_out(&mut table);
    let leg = Leg::new((0, 0), (10, -10));
    let commands = [add(Site::new(513, 2, -3)), stand(leg)].concat();
    let answer = Model.batch(&mut table, &mut [1; WORK_LEN], &commands, &mut [0; 2]);
    assert_eq!(answer, (0, 16, 2));
    // 1 site, a leg, (12000,12000) to (12010,11990), 1 entry, layout 2.
    let header = [
        1, 0, 1, 0, 0xE0, 0x2E, 0xE0, 0x2E, 0xEA, 0x2E, 0xD6, 0x2E, 1, 0, 2, 0,
    ];
    assert_eq!(table[..16], header);
    assert!(table[16..64].iter().all(|byte| *byte == 0));
    // Site 513 at (12002,11997).
    let record = [0x01, 0x02, 0xE2, 0x2E, 0xDD, 0x2E, 0, 0];
    assert_eq!(table[64..72], record);
    assert_eq!(table[4_160..4_162], [0x01, 0x02]);
    // One level, 263 free nodes, and the root.
    assert_eq!((table[5_184], table[5_185]), (1, 0));
    assert_eq!((table[5_188], table[5_189]), (7, 1));
    let root = 6_896 + 98 * (usize::from(table[5_186]) + 256 * usize::from(table[5_187]));
    assert_eq!(table[root..root + 2], [1, 0]);
    assert_eq!(table[root + 2..root + 8], record[..6]);
    assert_eq!(table[root + 8..root + 14], [0xE2, 0x2E, 0xDD, 0x2E, 0, 0]);
    assert_eq!(meaning(&table).unwrap().listed, [513]);
}

/// 40 sites on a line in five full leaves under one root, and a standing leg.
fn two_levels() -> Vec<u8> {
    let mut book = Book::new();
    let nth = |number: u16| add(Site::new(number, 3 * i64::from(number), 0));
    book.records(&(1..=40).map(nth).collect::<Vec<_>>());
    book.records(&[stand(Leg::new((0, 0), (100, 0)))]);
    let table = shape::table(&book, &mut Dealing::Even);
    let Nodes { root, leaf } = nodes(&table);
    assert_eq!(number(&table, node_at(root)), 5);
    assert_eq!(number(&table, node_at(leaf)), 8);
    assert_eq!(broken_rules(&table), []);
    table
}

/// The root of that table and the root's first child.
#[derive(Clone, Copy)]
struct Nodes {
    root: usize,
    leaf: usize,
}

fn nodes(table: &[u8]) -> Nodes {
    let root = number(table, ROOT);
    let leaf = number(table, entry_at(root, 0));
    Nodes { root, leaf }
}

/// The rules that an edit breaks in that table.
fn edited(edit: impl Fn(&mut Vec<u8>, Nodes)) -> Vec<Rule> {
    let mut table = two_levels();
    let nodes = nodes(&table);
    edit(&mut table, nodes);
    broken_rules(&table)
}

#[test]
fn rules_on_header_and_sites_are_named() {
    assert_eq!(edited(|t, _| t.push(0)), [Rule::Length]);
    assert_eq!(edited(|t, _| t.truncate(32_767)), [Rule::Length]);
    let kept = edited(|t, _| t[HEADER_KEPT.start] = 1);
    assert_eq!(kept, [Rule::HeaderKeptZero]);
    assert_eq!(edited(|t, _| t[63] = 128), [Rule::HeaderKeptZero]);
    for number in (0..=u16::MAX)
        .filter(|number| *number != LAYOUT_NUMBER)
        .step_by(255)
    {
        let other = edited(|t, _| put_word(t, LAYOUT, number));
        assert_eq!(other, [Rule::LayoutNumber]);
    }
    let kept = edited(|t, _| t[record_at(39) + 7] = 1);
    assert_eq!(kept, [Rule::RecordKeptZero]);
    let swapped = edited(|t, _| {
        let (first, second) = t[SITE_ARRAY..].split_at_mut(RECORD_LEN);
        first.swap_with_slice(&mut second[..RECORD_LEN]);
    });
    assert_eq!(swapped, [Rule::NumbersRise]);
    let numbered_zero = edited(|t, nodes| {
        put_word(t, record_at(0), 0);
        put_word(t, entry_at(nodes.leaf, 0), 0);
    });
    assert_eq!(numbered_zero, [Rule::NumberNotZero]);
    for field in [2, 4] {
        let off_grid = edited(|t, _| put_word(t, record_at(5) + field, FAR_EDGE + 1));
        assert!(off_grid.contains(&Rule::SiteOnGrid));
    }
    let too_many = edited(|t, _| put_number(t, SITES_HELD, 513));
    assert!(too_many.contains(&Rule::AtMost512Sites));
}

#[test]
fn rules_on_the_standing_leg_are_named() {
    for flag in [2, 257, 65_535] {
        let flagged = edited(|t, _| put_word(t, LEG_FLAG, flag));
        assert_eq!(flagged, [Rule::LegFlag]);
    }
    let unset = edited(|t, _| put_word(t, LEG_FLAG, 0));
    assert_eq!(unset, [Rule::NoLegIsZero]);
    for at in LEG_WORDS {
        let off_grid = edited(|t, _| put_word(t, at, FAR_EDGE + 1));
        assert_eq!(off_grid, [Rule::LegOnGrid]);
    }
}

/// That table in a tour which came from (0,0) to (100,-100).
fn in_a_tour(edit: impl Fn(&mut Vec<u8>)) -> Vec<Rule> {
    edited(|t, _| {
        let mut book = meaning(t).unwrap().book;
        book.records(&[begin(Position::new(0, 0)), corner(Position::new(100, -100))]);
        shape::write_tour(t, book.tour);
        // Site 33 is at (99,0), the nearest in the end.
        assert_eq!(t[TOUR], [1, 0, 0x44, 0x2F, 0x7C, 0x2E, 33, 0]);
        edit(t);
    })
}

#[test]
fn rules_on_a_tour_are_named() {
    assert_eq!(in_a_tour(|_| {}), []);
    for flag in [2, 256, 257, 65_535] {
        assert_eq!(in_a_tour(|t| put_word(t, 16, flag)), [Rule::TourFlag]);
        assert_eq!(edited(|t, _| put_word(t, 16, flag)), [Rule::TourFlag]);
    }
    assert_eq!(in_a_tour(|t| put_word(t, 16, 0)), [Rule::NoTourIsZero]);
    for at in [18, 20] {
        assert_eq!(in_a_tour(|t| put_word(t, at, 0)), []);
        assert_eq!(in_a_tour(|t| put_word(t, at, 24_000)), []);
        let off = in_a_tour(|t| put_word(t, at, 24_001));
        assert_eq!(off, [Rule::CornerOnGrid]);
        let without = edited(|t, _| put_word(t, at, 1));
        assert_eq!(without, [Rule::NoTourIsZero]);
    }
    for number in 0..=40 {
        assert_eq!(in_a_tour(|t| put_word(t, 22, number)), []);
    }
    for number in [41, 256 + 33, 33 * 256, 65_535] {
        let not_held = in_a_tour(|t| put_word(t, 22, number));
        assert_eq!(not_held, [Rule::RememberedHeld]);
    }
    let without = edited(|t, _| put_word(t, 22, 33));
    assert_eq!(without, [Rule::NoTourIsZero]);
    // All 0 but the flag: a tour from the grid's corner on.
    assert_eq!(edited(|t, _| put_word(t, 16, 1)), []);
    let both = in_a_tour(|t| {
        put_word(t, 20, 65_535);
        put_word(t, 22, 41);
    });
    assert_eq!(both, [Rule::CornerOnGrid, Rule::RememberedHeld]);
    for at in 24..64 {
        assert_eq!(in_a_tour(|t| t[at] = 1), [Rule::HeaderKeptZero]);
    }
}

#[test]
fn the_rule_on_the_standing_list_is_named() {
    let list = [Rule::StandingList];
    assert_eq!(edited(|t, _| put_word(t, listed_at(3), 40)), list);
    let listed = number(&two_levels(), ENTRIES_LISTED);
    for entries in [0, listed - 1, listed + 1, 512, 600, 65_535] {
        assert_eq!(edited(|t, _| put_number(t, ENTRIES_LISTED, entries)), list);
    }
    let without_leg = edited(|t, _| {
        put_word(t, LEG_FLAG, 0);
        for at in LEG_WORDS {
            put_word(t, at, 0);
        }
    });
    assert_eq!(without_leg, list);
}

/// Document 02, C-17: "65 is kept for the layout and the rules on tree, sites and tour".
#[test]
fn each_rule_gives_its_reason() {
    for rule in [
        Rule::LayoutNumber,
        Rule::HeaderKeptZero,
        Rule::AtMost512Sites,
        Rule::NumberNotZero,
        Rule::NumbersRise,
        Rule::SiteOnGrid,
        Rule::RecordKeptZero,
        Rule::LegFlag,
        Rule::NoLegIsZero,
        Rule::TourFlag,
        Rule::CornerOnGrid,
        Rule::RememberedHeld,
        Rule::NoTourIsZero,
        Rule::AtMostSixLevels,
        Rule::NodeId,
        Rule::AtMostEightEntries,
        Rule::AtLeastThreeEntries,
        Rule::AtLeastTwoInRoot,
        Rule::AtLeastOneInRoot,
        Rule::LeafIsPoint,
        Rule::SmallestBox,
        Rule::EntryKeptZero,
        Rule::SiteInOneLeafEntry,
        Rule::NoOtherLeafEntry,
        Rule::FreeCount,
        Rule::NodeOnce,
    ] {
        assert_eq!(reason(&[rule]), Some(65), "{rule:?}");
        // Directly before 69, in whichever order they are named.
        assert_eq!(reason(&[rule, Rule::StandingList]), Some(65), "{rule:?}");
        assert_eq!(reason(&[Rule::LegOnGrid, rule]), Some(65), "{rule:?}");
    }
    assert_eq!(reason(&[Rule::LegOnGrid]), Some(69));
    assert_eq!(reason(&[Rule::StandingList]), Some(69));
    assert_eq!(reason(&[Rule::Length]), Some(64));
    assert_eq!(reason(&[]), None);
}

/// An edit of the standing half beside each one elsewhere, and alone.
#[test]
fn reasons_of_two_edits() {
    type Edit = fn(&mut Vec<u8>, Nodes);
    let standing: [Edit; 7] = [
        |t, _| put_word(t, listed_at(0), 2),
        |t, _| put_word(t, listed_at(3), 999),
        |t, _| put_word(t, ENTRIES_LISTED, 513),
        |t, _| put_word(t, ENTRIES_LISTED, 0),
        |t, _| put_word(t, LEG_WORDS[3], FAR_EDGE + 1),
        |t, _| {
            put_word(t, LEG_WORDS[0], 65_535);
            put_word(t, ENTRIES_LISTED, 65_535);
        },
        // No leg, and its list is still there.
        |t, _| t[LEG_FLAG..ENTRIES_LISTED].fill(0),
    ];
    let elsewhere: [Edit; 10] = [
        |t, _| put_word(t, LAYOUT, 1),
        |t, _| t[HEADER_KEPT.start] = 1,
        |t, _| put_word(t, LEG_FLAG, 2),
        |t, _| t[record_at(39) + 7] = 1,
        |t, _| put_number(t, SITES_HELD, 39),
        |t, _| t[TOUR.start] = 2,
        |t, _| t[TOUR.end - 1] = 1,
        |t, _| put_number(t, FREE_NODES, 257),
        |t, nodes| t[entry_at(nodes.root, 1) + 2] ^= 1,
        |t, nodes| t[node_at(nodes.leaf)] = 7,
    ];
    for edit in standing {
        assert_eq!(reason(&edited(edit)), Some(69));
        for other in elsewhere {
            assert_eq!(reason(&edited(other)), Some(65));
            let both = edited(|t, nodes| {
                edit(t, nodes);
                other(t, nodes);
            });
            assert_eq!(reason(&both), Some(65), "{both:?}");
        }
    }
    // Without a flag the leg's words are no leg, be they on the grid or off it.
    let unset = edited(|t, _| {
        put_word(t, LEG_FLAG, 0);
        put_word(t, LEG_WORDS[0], 65_535);
        put_word(t, ENTRIES_LISTED, 0);
    });
    assert_eq!((reason(&unset), unset), (Some(65), vec![Rule::NoLegIsZero]));
}

/// Document 02, C-11: "The standing list and test 65 follow", which is 69 since C-17.
#[test]
fn a_stored_list_follows_the_tie_rule() {
    let sites = [Site::new(2, 3, 4), Site::new(5, 3, -4)];
    for (leg, number) in [
        (Leg::new((0, 0), (10, 0)), 5),
        (Leg::new((10, 0), (0, 0)), 2),
    ] {
        let book = Book::of(&sites, Some(leg));
        let mut table = shape::table(&book, &mut Dealing::Even);
        for named in [2, 5] {
            put_word(&mut table, listed_at(0), named);
            let due = (named != number).then_some(69);
            let said = reason(&broken_rules(&table));
            assert_eq!(said, due, "{leg:?} naming {named}");
        }
    }
}

#[test]
fn rules_on_entries_are_named() {
    let kept = edited(|t, nodes| t[entry_at(nodes.leaf, 7) + 11] = 4);
    assert_eq!(kept, [Rule::EntryKeptZero]);
    let kept = edited(|t, nodes| t[entry_at(nodes.root, 4) + 10] = 1);
    assert_eq!(kept, [Rule::EntryKeptZero]);
    // Each edge of a box one step out, and one step in.
    for (edge, step) in [2, 4, 6, 8]
        .into_iter()
        .flat_map(|edge| [(edge, -1), (edge, 1)])
    {
        let moved = edited(|t, nodes| {
            let at = entry_at(nodes.root, 1) + edge;
            let moved = word(t, at).checked_add_signed(step).unwrap();
            put_word(t, at, moved);
        });
        assert_eq!(moved, [Rule::SmallestBox]);
    }
    let wide = edited(|t, nodes| t[entry_at(nodes.leaf, 2) + 6] += 1);
    assert_eq!(wide, [Rule::LeafIsPoint]);
    let renumbered = edited(|t, nodes| put_word(t, entry_at(nodes.leaf, 3), 999));
    assert_eq!(
        renumbered,
        [Rule::SiteInOneLeafEntry, Rule::NoOtherLeafEntry]
    );
    let one_twice_one_missing = edited(|t, nodes| {
        let (from, to) = (entry_at(nodes.leaf, 3), entry_at(nodes.leaf, 4));
        t.copy_within(from..from + 12, to);
    });
    assert_eq!(one_twice_one_missing, [Rule::SiteInOneLeafEntry]);
}

#[test]
fn rules_on_counts_and_levels_are_named() {
    let nine = edited(|t, nodes| t[node_at(nodes.leaf)] = 9);
    assert_eq!(nine, [Rule::AtMostEightEntries]);
    let two = edited(|t, nodes| t[node_at(nodes.leaf)] = 2);
    assert!(two.contains(&Rule::AtLeastThreeEntries));
    let seven = edited(|t, _| put_number(t, LEVELS, 7));
    assert!(seven.contains(&Rule::AtMostSixLevels));
    let mut table = empty_table();
    put_number(&mut table, LEVELS, 1);
    put_number(&mut table, ROOT, 263);
    put_number(&mut table, FREE_NODES, 263);
    assert_eq!(broken_rules(&table), [Rule::AtLeastOneInRoot]);
}

#[test]
fn a_root_with_one_child_is_named() {
    let mut book = Book::new();
    let nth = |number| add(Site::new(number, 5, 6));
    book.records(&(1..=8).map(nth).collect::<Vec<_>>());
    let mut table = shape::table(&book, &mut Dealing::Even);
    let (leaf, above) = (number(&table, ROOT), number(&table, free_at(262)));
    put_number(&mut table, LEVELS, 2);
    put_number(&mut table, ROOT, above);
    put_number(&mut table, FREE_NODES, 262);
    put_number(&mut table, node_at(above), 1);
    // All sites are in one position, so the box is that of any entry.
    table.copy_within(entry_at(leaf, 0)..entry_at(leaf, 1), entry_at(above, 0));
    put_number(&mut table, entry_at(above, 0), leaf);
    assert_eq!(broken_rules(&table), [Rule::AtLeastTwoInRoot]);
}

#[test]
fn rules_on_the_pool_are_named() {
    let twice = edited(|t, _| t.copy_within(free_at(1)..free_at(2), free_at(0)));
    assert_eq!(twice, [Rule::NodeOnce]);
    let in_tree_too = edited(|t, nodes| put_number(t, free_at(0), nodes.leaf));
    assert_eq!(in_tree_too, [Rule::NodeOnce]);
    let own_child = edited(|t, nodes| put_number(t, entry_at(nodes.root, 2), nodes.root));
    assert!(own_child.contains(&Rule::NodeOnce));
    for free in [0, 257, 259, 264, 65_535] {
        let miscounted = edited(|t, _| put_number(t, FREE_NODES, free));
        assert!(miscounted.contains(&Rule::FreeCount), "{free}");
    }
    for id in [264, 65_535] {
        let free = edited(|t, _| put_number(t, free_at(0), id));
        assert_eq!(free, [Rule::NodeId, Rule::NodeOnce]);
        let root = edited(|t, _| put_number(t, ROOT, id));
        assert!(root.contains(&Rule::NodeId));
        let child = edited(|t, nodes| put_number(t, entry_at(nodes.root, 2), id));
        assert!(child.contains(&Rule::NodeId));
    }
}

#[test]
fn free_bytes_break_no_rule() {
    let mut table = two_levels();
    let root = nodes(&table).root;
    let mut spans = vec![
        record_at(40)..4_160,
        listed_at(number(&table, ENTRIES_LISTED))..LEVELS,
        free_at(number(&table, FREE_NODES))..6_896,
        entry_at(root, 5)..node_at(root) + 98,
    ];
    for i in 0..number(&table, FREE_NODES) {
        let at = node_at(number(&table, free_at(i)));
        spans.push(at..at + 98);
    }
    for span in spans {
        table[span].fill(0xFF);
    }
    assert_eq!(broken_rules(&table), []);
    // Without a level there is no root.
    let mut table = empty_table();
    put_word(&mut table, ROOT, 65_535);
    assert_eq!(broken_rules(&table), []);
}
