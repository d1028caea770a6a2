//! Sites that tie along the whole leg (document 02, C-11): lists, the standing list through changes,
//! and stored lists of this rule and of others.

use reference::book::Book;
use reference::command::{add, list, move_site, print, remove, stand};
use reference::grid::{Leg, Position, Site};
use reference::layout::{Case, MIRRORED, case};
use reference::random::{self, Random};
use reference::record::Record::{self, Accepted, List};
use reference::split::Entry;
use reference::ties::{TIES, mirror_image, number_alone, tie, way_back};
use service::bytes::{listed, listed_at, put_word};
use service::damage::{offer, stored_by};
use service::desk::{Desk, Tally};
use service::draw::{Pool, broken_off};
use service::history::{Run, call, compare_with_fresh};
use service::shape::{self, Dealing};
use service::table::Rule;
use service::{Service, on_each_service};

const LEG: Leg = Leg::new((0, 0), (10, 0));
const LEFT: Site = Site::new(2, 3, 4);
const RIGHT: Site = Site::new(5, 3, -4);
/// Standing legs, and changes on each.
const STANDING_LEGS: usize = 400;
const CHANGES: usize = 40;
const STORED_LISTS: usize = 3_000;

on_each_service!(
    ties_to_try,
    the_standing_list_of_two_and_five_through_every_change,
    mirror_images_of_listed_sites_come_and_go,
    runs_beside_a_standing_leg_answer_as_the_book_and_as_fresh_tables,
    the_earlier_list_of_two_and_five_gives_69,
    earlier_lists_give_69_where_a_tie_changes_them_and_are_else_taken,
    any_other_site_of_a_tie_in_a_stored_list_gives_69,
);

/// Twice, as 4C and 50 have it, the list that names one site alone.
fn twice(number: u16) -> [Record; 2] {
    let list = vec![Entry::new(number, 0, 1)];
    [List(list.clone()), List(list)]
}

/// Each leg there and back, by 4C and 50, the leg set at every place among the additions.
fn ties_to_try(service: &impl Service) {
    for case in TIES {
        for (leg, number) in [(case.leg, case.there), (way_back(&case.leg), case.back)] {
            for place in 0..=case.sites.len() {
                let mut desk = Desk::lay_out(service);
                let mut changes: Vec<Vec<u8>> = case.sites.iter().copied().map(add).collect();
                changes.insert(place, stand(leg));
                desk.records(&changes);
                let answers = desk.records(&[list(leg), print()]);
                assert_eq!(answers, twice(number), "{}", case.what);
                assert_eq!(listed(&desk.table), [number], "{}", case.what);
            }
        }
    }
}

fn the_standing_list_of_two_and_five_through_every_change(service: &impl Service) {
    let moved = |site: Site, to: Site| {
        let position = to.position;
        move_site(Site { position, ..site })
    };
    let changes = [
        (add(LEFT), 2),
        (add(RIGHT), 5),
        (remove(5), 2),
        (add(RIGHT), 5),
        (remove(2), 5),
        (add(LEFT), 5),
        // Both on the left, each on the other's side, both on the right, and back.
        (moved(RIGHT, LEFT), 2),
        (moved(LEFT, RIGHT), 2),
        (moved(RIGHT, RIGHT), 2),
        (moved(LEFT, LEFT), 5),
        (add(Site::new(65_535, 3, -4)), 5),
        (remove(5), 65_535),
        (add(Site::new(1, 3, 4)), 65_535),
        (stand(way_back(&LEG)), 1),
        (remove(1), 2),
        (stand(LEG), 65_535),
        (remove(65_535), 2),
    ];
    let mut desk = Desk::lay_out(service);
    desk.records(&[stand(LEG)]);
    for (change, number) in changes {
        assert_eq!(desk.records(std::slice::from_ref(&change)), [Accepted]);
        let leg = desk.book.leg.expect("a leg stands");
        let answers = desk.records(&[list(leg), print()]);
        assert_eq!(answers, twice(number), "{change:02X?}");
    }
}

/// Adds a site beside a listed one, or removes or moves one that ties with it along the whole leg.
fn change_at_a_tie(random: &mut Random, book: &Book, leg: &Leg) -> (usize, Vec<u8>) {
    let list = book.split_list(leg);
    let position = match list[..] {
        [] => leg.s,
        _ => book.lines[&random.pick(&list).site],
    };
    let image = |p: Position| mirror_image(leg, p).unwrap_or(p);
    let ties = |site: &Site| tie(leg, site.position, position);
    let ties: Vec<Site> = book.sites().into_iter().filter(ties).collect();
    match random.index(3) {
        1 if !ties.is_empty() => (1, remove(random.pick(&ties).number)),
        2 if !ties.is_empty() => {
            let Site { number, position } = random.pick(&ties);
            let position = image(position);
            (2, random::move_site(random, Site { number, position }))
        }
        _ => {
            let places = [image(position), image(position), position];
            let position = random.pick(&places);
            let number = free_number(random, book);
            (0, random::add(random, Site { number, position }))
        }
    }
}

fn free_number(random: &mut Random, book: &Book) -> u16 {
    let highest = random.pick(&[600, 65_535]);
    loop {
        let number = u16::try_from(random.between(1, highest)).expect("16 bits");
        if !book.lines.contains_key(&number) {
            return number;
        }
    }
}

/// Whether the lists have the same starts and other names.
fn only_names_differ(one: &[Entry], other: &[Entry]) -> bool {
    let starts = |list: &[Entry]| list.iter().map(|entry| entry.start).collect::<Vec<_>>();
    one != other && starts(one) == starts(other)
}

fn mirror_images_of_listed_sites_come_and_go(service: &impl Service) {
    let mut random = Random::new(321);
    let (mut renamed, mut sided) = ([0; 3], 0);
    for nth in 0..STANDING_LEGS {
        let count = 1 + random.index(if nth % 10 == 0 { 200 } else { 12 });
        let Case { leg, sites } = case(&mut random, MIRRORED[nth % 3], count);
        let mut desk = Desk::lay_out(service);
        desk.records(&[stand(leg)]);
        desk.records(&sites.into_iter().map(add).collect::<Vec<_>>());
        for _ in 0..CHANGES {
            let before = desk.book.split_list(&leg);
            let (kind, change) = change_at_a_tie(&mut random, &desk.book, &leg);
            desk.records(&[change, print(), list(leg), list(way_back(&leg))]);
            let after = desk.book.split_list(&leg);
            renamed[kind] += usize::from(only_names_differ(&before, &after));
        }
        sided += desk.tally.sided;
    }
    let changes = STANDING_LEGS * CHANGES;
    println!("names alone changed by additions, removals, moves: {renamed:?}");
    println!("the side decides in {sided} of {changes} standing lists");
    assert!(renamed.iter().all(|times| *times >= changes / 20));
    assert!(sided >= changes / 10);
}

/// Calls of every kind on a table whose sites are mirror images across the standing leg.
fn runs_beside_a_standing_leg_answer_as_the_book_and_as_fresh_tables(service: &impl Service) {
    let mut random = Random::new(324);
    let mut tally = Tally::default();
    for nth in 0..STANDING_LEGS {
        let count = 2 + random.index(if nth % 10 == 0 { 300 } else { 20 });
        let pool = Pool::of(&mut random, MIRRORED[nth % 3], count);
        let mut desk = Desk::lay_out(service);
        desk.records(&[stand(pool.leg(&mut random))]);
        desk.records(&pool.additions(&mut random));
        for _ in 0..8 {
            let count = random.index(20);
            let commands = pool.commands(&mut random, count);
            let commands = broken_off(&mut random, commands);
            call(&mut random, &mut desk, &commands);
        }
        let mut run = Run { desk, pool };
        compare_with_fresh(&mut random, &mut run);
        tally.add(&run.desk.tally);
    }
    println!("{tally:?}");
    assert!(tally.sided >= tally.checked / 10);
}

fn the_earlier_list_of_two_and_five_gives_69(service: &impl Service) {
    for (leg, now, earlier) in [(LEG, 5, 2), (way_back(&LEG), 2, 2)] {
        let mut desk = Desk::lay_out(service);
        desk.records(&[add(LEFT), add(RIGHT), stand(leg)]);
        assert_eq!(listed(&desk.table), [now]);
        let as_before = stored_by(number_alone, &desk.table);
        assert_eq!(listed(&as_before), [earlier]);
        for number in [2, 5, 1, 0] {
            let mut table = desk.table.clone();
            put_word(&mut table, listed_at(0), number);
            for commands in [vec![], print(), remove(2)] {
                let broken = offer(service, &table, &commands);
                let rules = [Rule::StandingList];
                assert_eq!(broken, rules[usize::from(number == now)..]);
            }
        }
    }
}

/// A book with sites that often tie along the whole leg.
fn book(random: &mut Random) -> Book {
    let count = 1 + random.index(40);
    let pool = Pool::new(random, count);
    let mut book = Book::new();
    book.records(&pool.additions(random));
    if !random.once_in(8) {
        book.records(&[stand(pool.leg(random))]);
    }
    book
}

/// An earlier table is refused for its list alone; without such a tie it is taken as it is.
fn earlier_lists_give_69_where_a_tie_changes_them_and_are_else_taken(service: &impl Service) {
    let mut random = Random::new(322);
    let (mut refused, mut taken) = (0, 0);
    for _ in 0..STORED_LISTS {
        let book = book(&mut random);
        let table = shape::table(&book, &mut Dealing::Any(&mut random));
        let earlier = stored_by(number_alone, &table);
        // A print leaves the table, byte for byte.
        let broken = offer(service, &earlier, &print());
        if earlier == table {
            assert_eq!(broken, []);
            taken += 1;
        } else {
            assert_eq!(broken, [Rule::StandingList]);
            refused += 1;
        }
    }
    println!("refused {refused}, taken {taken}");
    assert!(refused >= STORED_LISTS / 20 && taken >= STORED_LISTS / 2);
}

fn any_other_site_of_a_tie_in_a_stored_list_gives_69(service: &impl Service) {
    let mut random = Random::new(323);
    let mut refused = 0;
    for _ in 0..STORED_LISTS / 10 {
        let book = book(&mut random);
        let Some(leg) = book.leg else {
            continue;
        };
        let table = shape::table(&book, &mut Dealing::Any(&mut random));
        for (i, number) in listed(&table).into_iter().enumerate() {
            for site in book.sites() {
                if site.number != number && tie(&leg, site.position, book.lines[&number]) {
                    let mut other = table.clone();
                    put_word(&mut other, listed_at(i), site.number);
                    assert_eq!(offer(service, &other, &print()), [Rule::StandingList]);
                    refused += 1;
                }
            }
        }
    }
    println!("refused {refused}");
    assert!(refused >= STORED_LISTS / 10);
}
