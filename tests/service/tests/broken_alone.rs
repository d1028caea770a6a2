//! Tables with one fault each and all else consistent, as no flipped bit makes them: a service
//! that forgets a rule takes just these.

use reference::book::{Book, Tour};
use reference::command::{add, add_readings, corner, list, move_readings, print, remove, stand};
use reference::grid::{HALF_WIDTH, Leg, MOST_SITES, Position, Site};
use reference::random::Random;
use reference::readings::metres;
use service::bytes::{
    CORNER_WORDS, ENTRIES_LISTED, Entry, FAR_EDGE, FREE_NODES, HEADER_KEPT, LAYOUT, LAYOUT_NUMBER,
    LEG_FLAG, LEG_WORDS, LEVELS, MOST_LEVELS, REMEMBERED, ROOT, TOUR_FLAG, empty_table, free_at,
    leaf_entry, node_at, number, put_number, put_word, record_at, word,
};
use service::damage::{inner_nodes, nodes, offer};
use service::draw::Pool;
use service::shape::{self, Dealing, Limits};
use service::table::{Rule, broken_rules, meaning};
use service::{Service, on_each_service};
use std::path::Path;

const ROUNDS: usize = 120;

on_each_service!(
    sites_that_break_one_rule,
    legs_and_lists_that_break_one_rule,
    tours_that_break_one_rule,
    the_remembered_site_is_gone,
    leaves_that_do_not_hold_the_sites,
    nodes_with_too_few_entries,
    a_node_with_nine_entries,
    boxes_that_are_not_the_smallest,
    pools_that_lose_or_double_a_node,
    a_513th_site_and_a_seventh_level,
    a_table_of_release_0_7_0,
);

/// Its number alone tells it from a sound table, whose sites would stand elsewhere.
fn a_table_of_release_0_7_0(service: &impl Service) {
    let root = Path::new(env!("CARGO_MANIFEST_DIR")).join("../tables");
    let mut table = std::fs::read(root.join("release-0.7.0.stops")).expect("the table is kept");
    assert_eq!(word(&table, LAYOUT), 1);
    assert_refused(service, &table, &[Rule::LayoutNumber]);
    put_word(&mut table, LAYOUT, 0);
    assert_refused(service, &table, &[Rule::LayoutNumber]);
    put_word(&mut table, LAYOUT, LAYOUT_NUMBER);
    let misread = meaning(&table).expect("no other rule is broken").book;
    let dump = std::fs::read_to_string(root.join("release-0.7.0.dump")).expect("it is kept");
    assert_eq!(misread.lines.len() + 1, dump.lines().count());
    let site = misread.sites()[0];
    let (east, north) = (site.position.east, site.position.north);
    assert!(!dump.contains(&format!("add {} {east} {north}\n", site.number)));
}

/// A book with 12 to 80 sites and a standing leg.
fn book(random: &mut Random) -> Book {
    let count = 12 + random.index(69);
    let pool = Pool::new(random, count);
    let mut book = Book::new();
    let additions = pool.additions(random);
    book.records(&additions);
    book.records(&[stand(pool.leg(random))]);
    book
}

fn rounds(seed: u64, mut round: impl FnMut(&mut Random, Book)) {
    let mut random = Random::new(seed);
    for _ in 0..ROUNDS {
        let book = book(&mut random);
        round(&mut random, book);
    }
}

/// Commands that read all of a table and change it.
fn questions() -> Vec<u8> {
    let leg = Leg::new((-50, 3), (60, 8));
    let commands = [
        corner(leg.s),
        corner(leg.e),
        list(leg),
        print(),
        add(Site::new(65_000, 1, 1)),
        remove(65_000),
        add_readings(65_000, metres(50, 150)),
        move_readings(65_000, metres(0, -50)),
    ];
    commands.concat()
}

/// The table breaks these rules and no other, and the service refuses it.
fn assert_refused(service: &impl Service, table: &[u8], rules: &[Rule]) {
    assert_eq!(broken_rules(table), rules);
    assert_eq!(offer(service, table, &questions()), rules);
}

/// The table is sound, and the service takes it.
fn assert_taken(service: &impl Service, table: &[u8]) {
    assert_eq!(offer(service, table, &questions()), []);
}

fn table_of(random: &mut Random, sites: &[Site], leg: Option<Leg>) -> Vec<u8> {
    let mut table = empty_table();
    shape::write(&mut table, sites, leg, &mut Dealing::Any(random));
    table
}

fn sites_that_break_one_rule(service: &impl Service) {
    rounds(131, |random, book| {
        let sound = book.sites();
        let last = sound.len() - 1;
        for position in [(HALF_WIDTH + 1, 0), (-3, HALF_WIDTH + 1), (40_000, 9)] {
            let mut sites = sound.clone();
            sites[random.index(sound.len())].position = Position::new(position.0, position.1);
            let table = table_of(random, &sites, None);
            assert_refused(service, &table, &[Rule::SiteOnGrid]);
        }
        let mut sites = sound.clone();
        sites[0].number = 0;
        let table = table_of(random, &sites, None);
        assert_refused(service, &table, &[Rule::NumberNotZero]);
        // Two in the wrong order, and one number twice.
        let mut sites = sound.clone();
        sites.swap(last - 1, last);
        let table = table_of(random, &sites, book.leg);
        assert_refused(service, &table, &[Rule::NumbersRise]);
        let mut sites = sound;
        sites[last].number = sites[last - 1].number;
        sites[last].position = Position::new(-HALF_WIDTH, 1);
        sites[last - 1].position = Position::new(-HALF_WIDTH, 2);
        let table = table_of(random, &sites, None);
        assert_refused(service, &table, &[Rule::NumbersRise]);
    });
}

fn legs_and_lists_that_break_one_rule(service: &impl Service) {
    rounds(132, |random, book| {
        let (sites, leg) = (book.sites(), book.leg.unwrap());
        // The list is that of the leg, but the leg is off the grid.
        for end in [
            Position::new(HALF_WIDTH + 1, 0),
            Position::new(0, HALF_WIDTH + 1),
        ] {
            for leg in [Leg { s: end, ..leg }, Leg { e: end, ..leg }] {
                let table = table_of(random, &sites, Some(leg));
                assert_refused(service, &table, &[Rule::LegOnGrid]);
            }
        }
        // A list as it was before the last change.
        let listed = book.split_list(&leg);
        let gone = random.pick(&listed).site;
        let fewer: Vec<Site> = sites.iter().copied().filter(|s| s.number != gone).collect();
        let mut table = table_of(random, &sites, Some(leg));
        shape::write_standing(&mut table, &fewer, Some(leg));
        assert_refused(service, &table, &[Rule::StandingList]);
        // Entries behind the last, a list without a leg, and leg words without a leg.
        let mut table = table_of(random, &sites, Some(leg));
        put_number(&mut table, ENTRIES_LISTED, listed.len() + 1);
        assert_refused(service, &table, &[Rule::StandingList]);
        let mut table = table_of(random, &sites, None);
        put_number(&mut table, ENTRIES_LISTED, 1);
        assert_refused(service, &table, &[Rule::StandingList]);
        let mut table = table_of(random, &sites, None);
        put_word(&mut table, random.pick(&LEG_WORDS), 1);
        assert_refused(service, &table, &[Rule::NoLegIsZero]);
        let mut table = table_of(random, &sites, Some(leg));
        put_word(&mut table, LEG_FLAG, random.pick(&[2, 3, 256, 257, 65_535]));
        assert_refused(service, &table, &[Rule::LegFlag]);
    });
}

/// A sound table in this tour.
fn table_in(random: &mut Random, book: &Book, tour: Tour) -> Vec<u8> {
    let book = Book {
        tour: Some(tour),
        ..book.clone()
    };
    let table = shape::table(&book, &mut Dealing::Any(random));
    assert_eq!(broken_rules(&table), []);
    table
}

fn tours_that_break_one_rule(service: &impl Service) {
    rounds(138, |random, book| {
        let corner = book.leg.unwrap().s;
        let remembered = Some(random.pick(&book.sites()).number);
        let tour = Tour { corner, remembered };
        // One step off the grid on each side, and as far as can be. There is nothing south or west.
        for word in CORNER_WORDS {
            for value in [FAR_EDGE + 1, 32_768, 65_535] {
                let mut table = table_in(random, &book, tour);
                put_word(&mut table, word, FAR_EDGE);
                assert_taken(service, &table);
                put_word(&mut table, word, value);
                assert_refused(service, &table, &[Rule::CornerOnGrid]);
            }
        }
        // A number that is not held, right behind one that is, the least and the largest.
        let not_held = |number: &u16| !book.lines.contains_key(number);
        let held = tour.remembered.unwrap();
        let near = [held.wrapping_sub(1), held.wrapping_add(1), 1, u16::MAX];
        for number in near.into_iter().filter(|n| *n != 0).filter(not_held) {
            let mut table = table_in(random, &book, tour);
            put_word(&mut table, REMEMBERED, number);
            assert_refused(service, &table, &[Rule::RememberedHeld]);
        }
        // Every held number is as good, and 0, which says that there was no leg yet.
        let numbers: Vec<u16> = book.lines.keys().copied().chain([0]).collect();
        for number in [random.pick(&numbers), random.pick(&numbers), 0] {
            let mut table = table_in(random, &book, tour);
            put_word(&mut table, REMEMBERED, number);
            assert_taken(service, &table);
        }
        for flag in [2, 3, 255, 256, 257, 65_535] {
            let mut table = table_in(random, &book, tour);
            put_word(&mut table, TOUR_FLAG, flag);
            assert_refused(service, &table, &[Rule::TourFlag]);
        }
        // Without a tour: a corner's coordinate, each alone, or a number, also a held one.
        for (word, value) in [
            (CORNER_WORDS[0], 1),
            (CORNER_WORDS[1], FAR_EDGE),
            (REMEMBERED, held),
            (REMEMBERED, 256),
        ] {
            let mut table = shape::table(&book, &mut Dealing::Any(random));
            put_word(&mut table, word, value);
            assert_refused(service, &table, &[Rule::NoTourIsZero]);
        }
        let mut table = table_in(random, &book, tour);
        put_word(&mut table, TOUR_FLAG, 0);
        assert_refused(service, &table, &[Rule::NoTourIsZero]);
        let kept = HEADER_KEPT.start + random.index(HEADER_KEPT.len());
        let mut table = table_in(random, &book, tour);
        table[kept] = 1 << random.index(8);
        assert_refused(service, &table, &[Rule::HeaderKeptZero]);
    });
}

/// A tour that outlived the removal of the site it remembers, as no service leaves it.
fn the_remembered_site_is_gone(service: &impl Service) {
    rounds(139, |random, book| {
        let mut sites = book.sites();
        let gone = sites.remove(random.index(sites.len()));
        let fewer = Book::of(&sites, book.leg);
        let corner = gone.position;
        for remembered in [None, Some(gone.number), Some(sites[0].number)] {
            let mut table = shape::table(&fewer, &mut Dealing::Any(random));
            shape::write_tour(&mut table, Some(Tour { corner, remembered }));
            if remembered == Some(gone.number) {
                assert_refused(service, &table, &[Rule::RememberedHeld]);
            } else {
                assert_taken(service, &table);
            }
        }
    });
    // Without a site only 0 can be remembered.
    let mut table = empty_table();
    let corner = Position::new(5, 5);
    shape::write_tour(&mut table, Some(Tour::begun(corner)));
    assert_taken(service, &table);
    let remembered = Some(1);
    shape::write_tour(&mut table, Some(Tour { corner, remembered }));
    assert_refused(service, &table, &[Rule::RememberedHeld]);
}

fn leaves_that_do_not_hold_the_sites(service: &impl Service) {
    rounds(133, |random, book| {
        let sites = book.sites();
        let with_leaves = |random: &mut Random, leaves: &[Site]| {
            let mut table = table_of(random, &sites, book.leg);
            let dealing = &mut Dealing::Any(random);
            shape::write_tree(&mut table, leaves, Limits::LEGAL, dealing);
            table
        };
        let some = random.index(sites.len());
        let mut fewer = sites.clone();
        fewer.remove(some);
        let table = with_leaves(random, &fewer);
        assert_refused(service, &table, &[Rule::SiteInOneLeafEntry]);
        let twice = [&sites[..], &sites[some..=some]].concat();
        let table = with_leaves(random, &twice);
        assert_refused(service, &table, &[Rule::SiteInOneLeafEntry]);
        // One entry too many: a number that is not held, or a held one somewhere else.
        let free = (1..).find(|n| !book.lines.contains_key(n)).unwrap();
        let elsewhere = Position::new(-7_777, 7_777);
        for number in [free, sites[some].number] {
            let mut more = sites.clone();
            more.push(Site {
                number,
                position: elsewhere,
            });
            let table = with_leaves(random, &more);
            assert_refused(service, &table, &[Rule::NoOtherLeafEntry]);
        }
        let mut moved = sites.clone();
        moved[some].position = elsewhere;
        let table = with_leaves(random, &moved);
        let both = [Rule::SiteInOneLeafEntry, Rule::NoOtherLeafEntry];
        assert_refused(service, &table, &both);
        assert_refused(
            service,
            &with_leaves(random, &[]),
            &[Rule::SiteInOneLeafEntry],
        );
    });
}

fn nodes_with_too_few_entries(service: &impl Service) {
    rounds(134, |random, book| {
        let sites = book.sites();
        let few = |fewest_in_leaf, fewest_in_inner, fewest_in_root| Limits {
            fewest_in_leaf,
            fewest_in_inner,
            fewest_in_root,
            ..Limits::LEGAL
        };
        let cases = [
            (few(2, 3, 2), Rule::AtLeastThreeEntries),
            (few(1, 3, 2), Rule::AtLeastThreeEntries),
            (few(3, 2, 2), Rule::AtLeastThreeEntries),
            (few(3, 1, 2), Rule::AtLeastThreeEntries),
            (few(3, 3, 1), Rule::AtLeastTwoInRoot),
        ];
        for (limits, rule) in cases {
            let mut table = table_of(random, &sites, book.leg);
            shape::write_tree(&mut table, &sites, limits, &mut Dealing::Tallest);
            assert_refused(service, &table, &[rule]);
        }
    });
    let mut table = empty_table();
    put_number(&mut table, LEVELS, 1);
    put_number(&mut table, ROOT, 263);
    put_number(&mut table, FREE_NODES, 263);
    assert_refused(service, &table, &[Rule::AtLeastOneInRoot]);
}

/// The ninth entry stands in the node behind, which is free.
fn a_node_with_nine_entries(service: &impl Service) {
    rounds(137, |random, book| {
        let sites = &book.sites()[..9];
        let mut table = table_of(random, sites, None);
        shape::write_tree(&mut table, &sites[..8], Limits::LEGAL, &mut Dealing::Even);
        let root = number(&table, ROOT);
        // The nodes are taken from the last one down; the root moves one forward.
        assert_eq!((root, number(&table, free_at(262))), (263, 262));
        table.copy_within(node_at(263).., node_at(262));
        put_number(&mut table, ROOT, 262);
        put_number(&mut table, free_at(262), 263);
        put_number(&mut table, node_at(262), 9);
        leaf_entry(&sites[8]).write(&mut table, 262, 8);
        let rules = [Rule::AtMostEightEntries, Rule::SiteInOneLeafEntry];
        assert_refused(service, &table, &rules);
    });
}

/// Each edge of an entry one step further out or in.
fn edges_moved(random: &mut Random, entry: Entry) -> [Entry; 4] {
    let step = random.pick(&[-1, 1]);
    let moved = |edge: u16| edge.checked_add_signed(step).unwrap_or(1);
    let (west, south) = (moved(entry.west), moved(entry.south));
    let (east, north) = (moved(entry.east), moved(entry.north));
    [
        Entry { west, ..entry },
        Entry { south, ..entry },
        Entry { east, ..entry },
        Entry { north, ..entry },
    ]
}

fn boxes_that_are_not_the_smallest(service: &impl Service) {
    rounds(135, |random, book| {
        let table = table_of(random, &book.sites(), book.leg);
        let node = random.pick(&inner_nodes(&table));
        let i = random.index(number(&table, node_at(node)));
        let entry = Entry::read(&table, node, i);
        for wrong in edges_moved(random, entry) {
            let mut table = table.clone();
            wrong.write(&mut table, node, i);
            assert_refused(service, &table, &[Rule::SmallestBox]);
        }
        // Up to five sites are in one leaf, which has no box above it.
        let sites = &book.sites()[..1 + random.index(5)];
        let table = table_of(random, sites, None);
        let (root, i) = (number(&table, ROOT), random.index(sites.len()));
        let entry = Entry::read(&table, root, i);
        for wrong in &edges_moved(random, entry)[2..] {
            let mut table = table.clone();
            wrong.write(&mut table, root, i);
            assert_refused(service, &table, &[Rule::LeafIsPoint]);
        }
    });
}

fn pools_that_lose_or_double_a_node(service: &impl Service) {
    rounds(136, |random, book| {
        let table = table_of(random, &book.sites(), book.leg);
        let free = number(&table, FREE_NODES);
        let (one, other) = (random.index(free), random.index(free));
        let used = random.pick(&nodes(&table));
        let doubles = if one == other {
            used
        } else {
            number(&table, free_at(other))
        };
        for node in [used, doubles] {
            let mut table = table.clone();
            put_number(&mut table, free_at(one), node);
            assert_refused(service, &table, &[Rule::NodeOnce]);
        }
        for node in [264, 265, 65_535] {
            let mut table = table.clone();
            put_number(&mut table, free_at(one), node);
            assert_refused(service, &table, &[Rule::NodeId, Rule::NodeOnce]);
        }
        let mut fewer = table.clone();
        put_number(&mut fewer, FREE_NODES, free - 1);
        assert_refused(service, &fewer, &[Rule::FreeCount, Rule::NodeOnce]);
    });
}

/// 513 records run into the bytes of the standing list, which are free without a leg.
fn a_513th_site_and_a_seventh_level(service: &impl Service) {
    let nth = |k: usize| Site::new(u16::try_from(k).unwrap(), 3, i64::try_from(k).unwrap());
    let many: Vec<Site> = (1..=MOST_SITES + 1).map(nth).collect();
    let mut table = empty_table();
    shape::write_tree(&mut table, &many, Limits::LEGAL, &mut Dealing::Tallest);
    shape::write_sites(&mut table, &many);
    let rules = [Rule::AtMost512Sites, Rule::NoOtherLeafEntry];
    assert_eq!(word(&table, record_at(MOST_SITES)), 513);
    assert_refused(service, &table, &rules);
    // Seven levels leave no room for three entries in every node.
    let limits = Limits {
        fewest_in_leaf: 2,
        fewest_in_inner: 2,
        fewest_in_root: 2,
        most_levels: MOST_LEVELS + 1,
    };
    let mut table = empty_table();
    shape::write_sites(&mut table, &many[..128]);
    shape::write_tree(&mut table, &many[..128], limits, &mut Dealing::Tallest);
    assert_eq!(number(&table, LEVELS), 7);
    assert!(broken_rules(&table).contains(&Rule::AtMostSixLevels));
    assert!(!offer(service, &table, &print()).is_empty());
}
