//! Damaged tables: 65 or 69 comes exactly when the checker finds a broken rule, the one that is due
//! for it, and leaves table and report; where it finds none, the answer is that of the book in the
//! bytes.

use reference::book::{Book, Tour};
use reference::command::{
    add, add_readings, begin, corner, list, move_readings, print, remove, stand,
};
use reference::grid::{Leg, MOST_SITES, Site, TABLE_LEN, WRONG_WORK};
use reference::random::Random;
use reference::readings::metres;
use service::bytes::{
    CORNER_WORDS, ENTRY_LEN, FAR_EDGE, FREE_NODES, HALF_WIDTH, LEVELS, NODE_POOL, REMEMBERED, ROOT,
    SITE_ARRAY, SITES_HELD, STACK_END, STANDING_LIST, TOUR, TOUR_FLAG, empty_table, entry_at,
    leaf_entry, node_at, number, put_number, put_word, word,
};
use service::damage::{Outcomes, assert_wrong_length_first, flipped, nodes, offer, regions};
use service::desk::Desk;
use service::draw::Pool;
use service::shape::{self, Dealing};
use service::table::{broken_rules, meaning};
use service::{Service, on_each_service};
use std::collections::BTreeMap;

const SIZES: [usize; 17] = [
    0, 0, 1, 1, 2, 3, 3, 8, 9, 9, 17, 17, 40, 40, 100, 300, MOST_SITES,
];
/// Up to this many sites, and in every standing list, all eight bits of a byte are flipped; above
/// and on the stack one.
const FEW_SITES: usize = 9;
const WORDS_CHANGED: usize = 6_000;
const ENTRIES_SWAPPED: usize = 2_000;
const RUBBISH: usize = 1_000;
const TOUCHED_FREE_BYTES: usize = 500;

on_each_service!(
    one_flipped_bit_in_every_byte_that_counts,
    each_byte_of_a_tour_and_behind_it,
    each_value_of_a_tours_words,
    words_changed_to_likely_values,
    swapped_entries,
    rubbish,
    nodes_in_a_ring_or_shared,
    free_bytes_do_not_count,
    wrong_lengths_come_before_a_broken_table,
);

/// A sound table of any shape and its sites' pool.
fn sound_table(random: &mut Random, count: usize) -> (Vec<u8>, Pool) {
    let pool = Pool::new(random, count.max(1));
    let mut additions = pool.additions(random);
    additions.truncate(count);
    let mut book = Book::new();
    book.records(&additions);
    if !random.once_in(3) {
        book.records(&[stand(pool.leg(random))]);
    }
    if random.once_in(2) {
        book.tour = Some(some_tour(random, &book, &pool));
    }
    let table = match random.between(1, 3) {
        1 => shape::table(&book, &mut Dealing::Even),
        2 => shape::table(&book, &mut Dealing::Tallest),
        _ => shape::table(&book, &mut Dealing::Any(random)),
    };
    (table, pool)
}

/// At a corner anywhere, with a remembered site or none.
fn some_tour(random: &mut Random, book: &Book, pool: &Pool) -> Tour {
    let held: Vec<u16> = book.lines.keys().copied().collect();
    let some = !held.is_empty() && random.once_in(2);
    Tour {
        corner: pool.leg(random).s,
        remembered: some.then(|| random.pick(&held)),
    }
}

/// Nine sites in a row along the standing leg, all listed.
fn row() -> Vec<u8> {
    let mut book = Book::new();
    for number in 1..=9 {
        book.records(&[add(Site::new(number, 100 * i64::from(number), 3))]);
    }
    book.records(&[stand(Leg::new((0, 0), (1_000, 0)))]);
    shape::table(&book, &mut Dealing::Even)
}

/// Commands that read all of the book and change it.
fn questions(random: &mut Random, pool: &Pool) -> Vec<u8> {
    let Leg { s, e } = pool.leg(random);
    let mut commands = vec![corner(s), list(pool.leg(random)), print(), corner(e)];
    commands.extend([list(pool.leg(random)), begin(s), corner(e)]);
    commands.extend(pool.commands(random, 4));
    commands.extend([add(Site::new(40_000, 3, 4)), print(), remove(40_000)]);
    commands.extend([add_readings(40_000, metres(350, -49)), print()]);
    commands.extend([move_readings(40_000, metres(-50, 0)), remove(40_000)]);
    commands.concat()
}

fn one_flipped_bit_in_every_byte_that_counts(service: &impl Service) {
    let mut random = Random::new(71);
    let mut told: BTreeMap<&str, Outcomes> = BTreeMap::new();
    let tables = SIZES.map(|count| sound_table(&mut random, count));
    // Other lists may be short; this one and its leg have bits enough.
    let row = (row(), Pool::new(&mut random, FEW_SITES));
    for (table, pool) in tables.into_iter().chain([row]) {
        let few = number(&table, SITES_HELD) <= FEW_SITES;
        for region in regions(&table) {
            let outcome = told.entry(region.name).or_default();
            let all = region.name == "standing list" || few && region.name != "stack";
            for at in region.bytes {
                let bits = if all {
                    (0..8).collect()
                } else {
                    vec![random.index(8)]
                };
                for bit in bits {
                    let commands = questions(&mut random, &pool);
                    outcome.count(&offer(service, &flipped(&table, at, bit), &commands));
                }
            }
        }
    }
    println!("{told:?}");
    assert_eq!(told.len(), 7);
    assert!(told.values().all(|outcome| outcome.refused() >= 100));
    // A leg that moves a little may have the same list.
    assert!(told["header"].taken >= 10);
    // The header has words of both halves, the list those of one, and the rest those of the other.
    for (name, outcome) in &told {
        let halves = match *name {
            "header" => (true, true),
            "standing list" => (false, true),
            _ => (true, false),
        };
        assert_eq!((outcome.with_65 > 0, outcome.with_69 > 0), halves, "{name}");
    }
    assert!(told["header"].with_65 >= 100 && told["header"].with_69 >= 100);
}

/// Tables of many sizes, each without a tour, with one that begins, and with one that remembers a site.
fn with_and_without_a_tour(random: &mut Random) -> Vec<(Vec<u8>, Pool)> {
    let mut tables = vec![row()];
    tables.extend([0, 1, 2, 9, 30].map(|count| sound_table(random, count).0));
    let mut toured = Vec::new();
    for table in tables {
        let pool = Pool::new(random, 5);
        let book = meaning(&table).expect("the table is sound").book;
        let corner = pool.leg(random).s;
        let remembered = book.lines.keys().next_back().copied();
        for tour in [
            None,
            Some(Tour::begun(corner)),
            Some(Tour { corner, remembered }),
        ] {
            let mut table = table.clone();
            shape::write_tour(&mut table, tour);
            toured.push((table, Pool::new(random, 5)));
        }
    }
    toured
}

/// The 48 bytes from 16 to 63, which were all kept for later before tours: each with every value
/// where a tour stands, and behind it with one bit or all but one.
fn each_byte_of_a_tour_and_behind_it(service: &impl Service) {
    let mut random = Random::new(76);
    let (mut refused, mut taken) = ([0; 48], [0; 48]);
    for (table, pool) in with_and_without_a_tour(&mut random) {
        let commands = questions(&mut random, &pool);
        for at in TOUR.start..SITE_ARRAY {
            let bits = (0..8).flat_map(|bit| [1 << bit, !(1 << bit)]);
            let values: Vec<u8> = match at {
                at if TOUR.contains(&at) => (0..=255).collect(),
                _ => bits.chain([0, 2, 3, 0xFF]).collect(),
            };
            for value in values {
                let mut damaged = table.clone();
                damaged[at] = value;
                let sound = offer(service, &damaged, &commands).is_empty();
                let outcome = if sound { &mut taken } else { &mut refused };
                outcome[at - TOUR.start] += 1;
            }
        }
    }
    println!("refused {refused:?}, taken {taken:?}");
    assert!(refused.iter().all(|times| *times >= 100));
    // A kept byte is taken as 0 alone, once a table.
    let (tour, kept) = taken.split_at(TOUR.len());
    assert!(kept.iter().all(|times| *times == kept[0]));
    // Both bytes of a coordinate, and the low one of a number, have other values that are sound.
    assert!(tour[2..6].iter().all(|times| *times >= 500));
    assert!(tour[6] >= kept[0] + 10);
}

/// Every value of the flag and of the remembered number; of the corner those around the grid's edges
/// and some between.
fn each_value_of_a_tours_words(service: &impl Service) {
    let mut random = Random::new(77);
    let (table, pool) = sound_table(&mut random, 12);
    let mut table = table;
    let mut told = BTreeMap::new();
    for flag in [0, 1] {
        let tour = (flag == 1).then(|| Tour::begun(pool.leg(&mut random).s));
        shape::write_tour(&mut table, tour);
        for at in [TOUR_FLAG, CORNER_WORDS[0], CORNER_WORDS[1], REMEMBERED] {
            for value in 0..=u16::MAX {
                let beside_the_edge =
                    value.abs_diff(FAR_EDGE) <= 3 || !(3..=65_532).contains(&value);
                let coordinate = CORNER_WORDS.contains(&at);
                if coordinate && !beside_the_edge && value % 97 != 0 {
                    continue;
                }
                let mut damaged = table.clone();
                put_word(&mut damaged, at, value);
                let sound = offer(service, &damaged, &[]).is_empty();
                let outcome: &mut [usize; 2] = told.entry((flag, at)).or_default();
                outcome[usize::from(sound)] += 1;
                if coordinate && flag == 1 {
                    assert_eq!(sound, value <= FAR_EDGE, "{value}");
                }
            }
        }
    }
    println!("refused and taken, by flag and byte: {told:?}");
    let word_zero = usize::from(CORNER_WORDS.iter().all(|at| word(&table, *at) == 0));
    // Without a tour: flag 0, or 1 with all else 0; with one: 1, or 0 where all else is 0.
    assert_eq!(
        (told[&(0, TOUR_FLAG)][1], told[&(1, TOUR_FLAG)][1]),
        (2, 1 + word_zero)
    );
    assert_eq!(
        (told[&(0, REMEMBERED)][1], told[&(1, REMEMBERED)][1]),
        (1, 13)
    );
    assert!(
        CORNER_WORDS
            .iter()
            .all(|at| told[&(0, *at)][1] == 1 && told[&(1, *at)][1] >= 200)
    );
}

/// A value such as stands somewhere in a table: a count, an id, a number, a coordinate.
fn likely_value(random: &mut Random, table: &[u8]) -> usize {
    let nodes = nodes(table);
    match random.between(1, 5) {
        1 => random.index(10),
        2 => random.index(266),
        3 if !nodes.is_empty() => random.pick(&nodes),
        4 => usize::from(HALF_WIDTH) - 10 + random.index(20),
        _ => number(table, 2 * random.index(STACK_END / 2)),
    }
}

fn words_changed_to_likely_values(service: &impl Service) {
    let mut random = Random::new(72);
    let mut outcomes = Outcomes::default();
    for nth in 0..WORDS_CHANGED {
        let count = random.index(if nth % 20 == 0 { 200 } else { 30 });
        let (mut table, pool) = sound_table(&mut random, count);
        for _ in 0..1 + random.index(2) {
            let regions = regions(&table);
            let bytes = regions[random.index(regions.len())].bytes.clone();
            if !bytes.is_empty() {
                let at = bytes.start + 2 * random.index(bytes.len() / 2);
                let value = likely_value(&mut random, &table);
                put_number(&mut table, at, value);
            }
            // The next word is picked as long as the table's regions can be read.
            if !broken_rules(&table).is_empty() {
                break;
            }
        }
        let commands = questions(&mut random, &pool);
        outcomes.count(&offer(service, &table, &commands));
    }
    println!("{outcomes:?}");
    assert!(outcomes.refused() >= WORDS_CHANGED / 2);
    assert!(outcomes.taken >= WORDS_CHANGED / 50 && outcomes.with_69 >= WORDS_CHANGED / 50);
}

/// Two entries anywhere in the tree change places; in one node that is another legal order.
fn swapped_entries(service: &impl Service) {
    let mut random = Random::new(73);
    let (mut refused, mut taken) = (0, 0);
    for _ in 0..ENTRIES_SWAPPED {
        let count = 9 + random.index(40);
        let (mut table, pool) = sound_table(&mut random, count);
        let nodes = nodes(&table);
        let mut node = random.pick(&nodes);
        let mut place = || {
            let place = entry_at(node, random.index(number(&table, node_at(node))));
            if random.once_in(2) {
                node = random.pick(&nodes);
            }
            place
        };
        let (one, other) = (place(), place());
        for offset in 0..ENTRY_LEN {
            table.swap(one + offset, other + offset);
        }
        let commands = questions(&mut random, &pool);
        match offer(service, &table, &commands)[..] {
            [] => taken += 1,
            _ => refused += 1,
        }
    }
    println!("refused {refused}, taken {taken}");
    assert!(refused >= ENTRIES_SWAPPED / 5 && taken >= ENTRIES_SWAPPED / 5);
}

fn rubbish(service: &impl Service) {
    let mut random = Random::new(74);
    let spans = [
        0..TABLE_LEN,
        0..SITE_ARRAY,
        SITE_ARRAY..STANDING_LIST,
        LEVELS..STACK_END,
        NODE_POOL..TABLE_LEN,
    ];
    let mut refused = 0;
    for nth in 0..RUBBISH {
        let count = 1 + random.index(60);
        let (mut table, pool) = sound_table(&mut random, count);
        let highest = random.pick(&[1, 8, 255]);
        for byte in &mut table[spans[nth % spans.len()].clone()] {
            *byte = u8::try_from(random.between(0, highest)).unwrap();
        }
        let commands = questions(&mut random, &pool);
        refused += usize::from(!offer(service, &table, &commands).is_empty());
    }
    for byte in [0x00, 0x01, 0x55, 0xFF] {
        assert!(!offer(service, &vec![byte; TABLE_LEN], &print()).is_empty());
    }
    println!("refused {refused}");
    assert!(refused >= RUBBISH * 9 / 10);
}

/// Six levels over few nodes: a search or test without care would read them without end.
fn nodes_in_a_ring_or_shared(service: &impl Service) {
    for step in [0, 1] {
        let mut table = empty_table();
        put_number(&mut table, LEVELS, 6);
        put_number(&mut table, ROOT, 0);
        put_number(&mut table, FREE_NODES, 258);
        for node in 0..6_u16 {
            put_number(&mut table, node_at(usize::from(node)), 8);
            for i in 0..8 {
                // Every child is the next node, or each node is its own child.
                let child = leaf_entry(&Site::new(node + step, 5, 5));
                child.write(&mut table, usize::from(node), i);
            }
        }
        let commands = [print(), list(Leg::new((0, 0), (9, 9)))].concat();
        assert!(!offer(service, &table, &commands).is_empty());
    }
}

fn free_bytes_do_not_count(service: &impl Service) {
    let mut random = Random::new(75);
    for nth in 0..TOUCHED_FREE_BYTES {
        let count = if nth % 25 == 0 { 400 } else { random.index(40) };
        let (mut table, pool) = sound_table(&mut random, count);
        let mut free = vec![true; TABLE_LEN];
        for region in regions(&table) {
            free[region.bytes].fill(false);
        }
        for at in (0..TABLE_LEN).filter(|at| free[*at]) {
            table[at] = u8::try_from(random.between(0, 255)).unwrap();
        }
        let mut desk = Desk::take_up(service, table);
        for _ in 0..3 {
            desk.serve(&questions(&mut random, &pool));
        }
    }
}

fn wrong_lengths_come_before_a_broken_table(service: &impl Service) {
    let broken = vec![0xFF; TABLE_LEN];
    for work_len in WRONG_WORK {
        assert_wrong_length_first(service, &broken, work_len);
    }
    // Without commands too the table is tested.
    assert!(!offer(service, &broken, &[]).is_empty());
    assert!(offer(service, &empty_table(), &[]).is_empty());
}
