//! Every line of "Legs to try" in document 01.

use reference::batch_program;
use reference::book::{Book, CUT_COMMAND, Reply};
use reference::command::{add, list, print, remove, stand};
use reference::grid::{Leg, MOST_SITES, REPORT_LEN, Site, WORK_LEN};
use reference::hull;
use reference::record::Record::{Accepted, List, Refused};
use reference::split::{self, Entry, is_split_list};

/// The leg where no other is named.
const LEG: Leg = Leg::new((0, 0), (10, 0));

/// The list by the definition, by its rules, by the hull, and by 4C and 50.
fn assert_listed(leg: Leg, sites: &[Site], expected: &[Entry]) {
    assert_eq!(split::split_list(&leg, sites), expected);
    assert!(is_split_list(&leg, sites, expected));
    assert_eq!(hull::split_list(&leg, sites), expected);
    let mut commands = vec![stand(leg)];
    commands.extend(sites.iter().map(|site| add(*site)));
    commands.extend([list(leg), print()]);
    let mut answers = vec![Accepted; 1 + sites.len()];
    answers.extend([List(expected.to_vec()), List(expected.to_vec())]);
    assert_eq!(Book::new().records(&commands), answers);
}

const TWO_SITES: [Site; 2] = [Site::new(1, 2, 3), Site::new(2, 7, 1)];
const THIRD_SITE: Site = Site::new(3, 9, -4);
const TWO_ENTRIES: [Entry; 2] = [Entry::new(1, 0, 1), Entry::new(2, 37, 100)];

#[test]
fn two_sites() {
    assert_listed(LEG, &TWO_SITES, &TWO_ENTRIES);
}

#[test]
fn a_third_site_changes_nothing() {
    let sites = [TWO_SITES[0], TWO_SITES[1], THIRD_SITE];
    assert_listed(LEG, &sites, &TWO_ENTRIES);
}

#[test]
fn the_standing_list_follows_an_addition_and_two_removals() {
    let [first, second] = TWO_SITES.map(add);
    let mut book = Book::new();
    let answers = book.records(&[stand(LEG), first, second, print()]);
    let listed = List(TWO_ENTRIES.to_vec());
    assert_eq!(answers, [Accepted, Accepted, Accepted, listed.clone()]);
    let answers = book.records(&[add(THIRD_SITE), print()]);
    assert_eq!(answers, [Accepted, listed]);
    let answers = book.records(&[remove(2), remove(3), print(), list(LEG)]);
    let alone = List(vec![Entry::new(1, 0, 1)]);
    assert_eq!(answers, [Accepted, Accepted, alone.clone(), alone]);
}

/// Document 02, C-11: "that leg now lists 5".
#[test]
fn a_tie_along_the_leg_goes_to_the_right_hand_side() {
    let sites = [Site::new(2, 3, 4), Site::new(5, 3, -4)];
    assert_listed(LEG, &sites, &[Entry::new(5, 0, 1)]);
}

#[test]
fn a_site_that_touches_once_is_not_listed() {
    let sites = [Site::new(1, 0, 0), Site::new(2, 10, 0), Site::new(3, 5, 5)];
    assert_listed(LEG, &sites, &[Entry::new(1, 0, 1), Entry::new(2, 1, 2)]);
}

#[test]
fn a_tie_at_0_goes_to_the_site_nearer_after_it() {
    let sites = [Site::new(1, -2, 0), Site::new(2, 2, 0)];
    assert_listed(LEG, &sites, &[Entry::new(2, 0, 1)]);
}

#[test]
fn a_tie_at_1_starts_no_entry() {
    let sites = [Site::new(1, 8, 0), Site::new(2, 12, 0)];
    assert_listed(LEG, &sites, &[Entry::new(1, 0, 1)]);
}

#[test]
fn a_leg_from_a_position_to_itself() {
    let sites = [Site::new(7, 4, 5), Site::new(3, 5, 4)];
    assert_listed(Leg::new((4, 4), (4, 4)), &sites, &[Entry::new(3, 0, 1)]);
}

#[test]
fn a_site_at_each_end_of_a_diagonal() {
    let leg = Leg::new((-8000, -8000), (8000, 8000));
    let sites = [Site::new(1, -8000, -8000), Site::new(2, 8000, 8000)];
    assert_listed(leg, &sites, &[Entry::new(1, 0, 1), Entry::new(2, 1, 2)]);
}

/// Document 02, C-12: 31 bits do not hold the denominator.
#[test]
fn from_corner_to_corner() {
    let leg = Leg::new((-12000, -12000), (12000, 12000));
    let sites = [Site::new(1, -11999, -12000), Site::new(2, 12000, 12000)];
    let taking_over = Entry::new(2, 1_151_999_999, 2_303_952_000);
    assert_listed(leg, &sites, &[Entry::new(1, 0, 1), taking_over]);
    let bytes = Book::new().call(
        &[sites.map(add).concat(), list(leg)].concat(),
        WORK_LEN,
        REPORT_LEN,
    );
    // Two additions, mark and count, the first entry, number and numerator, the denominator.
    assert_eq!(bytes.report[21..], [0x80, 0x84, 0x53, 0x89]);
}

#[test]
fn without_a_site_a_list_gets_6() {
    let mut book = Book::new();
    assert_eq!(book.records(&[list(LEG)]), [Refused(6)]);
    let answers = book.records(&[stand(LEG), print()]);
    assert_eq!(answers, [Accepted, Refused(6)]);
}

#[test]
fn without_a_standing_leg_and_a_site_a_print_gets_7() {
    assert_eq!(Book::new().records(&[print()]), [Refused(7)]);
}

#[test]
fn easting_12000_is_taken_and_12001_gets_2() {
    let taken = add(Site::new(1, 12000, 0));
    let off_grid = add(Site::new(2, 12001, 0));
    let answers = Book::new().records(&[taken, off_grid]);
    assert_eq!(answers, [Accepted, Refused(2)]);
}

#[test]
fn the_513th_site_gets_5_until_one_is_removed() {
    let mut book = Book::new();
    let nth = |number: u16| add(Site::new(number, i64::from(number), 0));
    let all: Vec<Vec<u8>> = (1..=512).map(nth).collect();
    assert_eq!(book.records(&all), vec![Accepted; 512]);
    assert_eq!(book.lines.len(), MOST_SITES);
    let answers = book.records(&[nth(513), nth(40), remove(40), nth(513)]);
    assert_eq!(answers, [Refused(5), Refused(3), Accepted, Accepted]);
    assert_eq!(book.records(&[nth(40)]), [Refused(5)]);
}

#[test]
fn three_bytes_of_an_addition_are_cut_short() {
    let mut book = Book::new();
    let reply = book.call(&[0x41, 0x01, 0x00], WORK_LEN, REPORT_LEN);
    let expected = Reply {
        reason: CUT_COMMAND,
        used: 0,
        written: 0,
        report: vec![],
    };
    assert_eq!(reply, expected);
    assert_eq!(book, Book::new());
}

#[test]
fn the_batch_program_prints_the_example() {
    let input = [
        0x41, 0x01, 0x00, 0x02, 0x00, 0x03, 0x00, // site 1 at (2,3)
        0x41, 0x02, 0x00, 0x07, 0x00, 0x01, 0x00, // site 2 at (7,1)
        0x4C, 0x00, 0x00, 0x00, 0x00, 0x0A, 0x00, 0x00, 0x00,
    ];
    let output = [
        0x2B, 0x2B, 0x3D, 0x02, 0x00, // two additions, the list mark, count 2
        0x01, 0x00, 0x00, 0x00, 0x00, 0x00, 0x01, 0x00, 0x00, 0x00, // 1 from 0/1
        0x02, 0x00, 0x25, 0x00, 0x00, 0x00, 0x64, 0x00, 0x00, 0x00, // 2 from 37/100
        0x2E, 0x00,
    ];
    assert_eq!(batch_program::run(&input), output);
}
