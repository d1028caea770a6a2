//! Tables whose trees have any legal shape, up to six levels of nodes as empty or as full as can
//! be: the service takes them up, changes them and lists as the book says.

use reference::book::Book;
use reference::command::{add, list, print, remove, stand};
use reference::grid::{Leg, MOST_SITES, Site};
use reference::random::Random;
use reference::record::Record::Accepted;
use service::desk::{Desk, Tally};
use service::draw::Pool;
use service::history::{Run, compare_with_fresh};
use service::shape::{self, Dealing};
use service::{Service, on_each_service};

const SHAPES: usize = 300;
const CALLS_A_SHAPE: usize = 25;
/// After one shape in so many come fresh tables.
const FRESH_ONCE_IN: usize = 5;

on_each_service!(
    trees_of_any_shape_are_taken_up_and_changed,
    six_levels_shrink_to_none,
    full_nodes_split,
);

/// A book with this many of the pool's numbers.
fn book(random: &mut Random, pool: &Pool, count: usize) -> Book {
    let mut book = Book::new();
    let mut additions = pool.additions(random);
    additions.truncate(count);
    book.records(&additions);
    if !random.once_in(4) {
        book.records(&[stand(pool.leg(random))]);
    }
    book
}

fn trees_of_any_shape_are_taken_up_and_changed(service: &impl Service) {
    let mut random = Random::new(91);
    let mut tally = Tally::default();
    for nth in 0..SHAPES {
        let count = match nth % 4 {
            0 => MOST_SITES - random.index(27),
            1 => 1 + random.index(MOST_SITES),
            _ => 1 + random.index(70),
        };
        let pool = Pool::new(&mut random, count + count.div_ceil(4));
        let book = book(&mut random, &pool, count);
        let table = if nth % 7 == 0 {
            shape::table(&book, &mut Dealing::Tallest)
        } else {
            shape::table(&book, &mut Dealing::Any(&mut random))
        };
        let mut desk = Desk::take_up(service, table);
        assert_eq!(desk.book, book);
        for _ in 0..CALLS_A_SHAPE {
            let commands = 1 + random.index(5);
            desk.serve(&pool.commands(&mut random, commands).concat());
        }
        let mut run = Run { desk, pool };
        if nth % FRESH_ONCE_IN == 0 {
            compare_with_fresh(&mut random, &mut run);
        }
        tally.add(&run.desk.tally);
    }
    println!("{tally:?}");
    assert!(tally.accepted >= SHAPES * CALLS_A_SHAPE / 2 && tally.lists >= 10 * SHAPES);
}

/// Sites scattered over 101 by 97 positions.
fn site(number: u16) -> Site {
    let k = i64::from(number);
    Site::new(number, k * 7 % 101 * 50 - 2_500, k * 11 % 97 * 50 - 2_400)
}

fn many(count: u16) -> Book {
    let mut book = Book::new();
    let answers = book.records(&(1..=count).map(|n| add(site(n))).collect::<Vec<_>>());
    assert_eq!(answers, vec![Accepted; usize::from(count)]);
    book.records(&[stand(Leg::new((-2_500, -2_400), (2_500, 2_400)))]);
    book
}

/// 486 sites in six levels, no node with an entry to spare; then one removal after another.
fn six_levels_shrink_to_none(service: &impl Service) {
    let mut random = Random::new(92);
    for order in 0..4 {
        let book = many(486);
        let table = shape::table(&book, &mut Dealing::Tallest);
        let meaning = service::table::meaning(&table).unwrap();
        assert_eq!((meaning.levels, meaning.nodes), (6, 243));
        let mut desk = Desk::take_up(service, table);
        let mut numbers: Vec<u16> = book.lines.keys().copied().collect();
        match order {
            0 => {}
            1 => numbers.reverse(),
            2 => numbers.sort_by_key(|number| site(*number).position),
            _ => random.shuffle(&mut numbers),
        }
        for number in numbers {
            let commands = [remove(number), print()].concat();
            assert_eq!(desk.serve(&commands).report[0], 0x2B);
        }
        assert!(desk.book.lines.is_empty());
        let again = [add(site(1)), list(Leg::new((0, 0), (9, 9)))].concat();
        assert_eq!(desk.serve(&again).report[..4], [0x2B, 0x3D, 1, 0]);
    }
}

/// Every node of 8 or of 8 × 8 sites is full, so that one addition splits all on its way.
fn full_nodes_split(service: &impl Service) {
    for count in [8, 64] {
        for added in 100..164 {
            let table = shape::table(&many(count), &mut Dealing::Even);
            let mut desk = Desk::take_up(service, table);
            for number in [added, added + 200] {
                let commands = [add(site(number)), print()].concat();
                assert_eq!(desk.serve(&commands).report[0], 0x2B);
            }
        }
    }
}
