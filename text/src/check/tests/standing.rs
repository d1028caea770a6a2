//! A wrong standing leg or list gets 69 where nothing else is broken, and 65 where anything is.

use super::{any_sound, sound, told, toured, verdict};
use crate::service::{BROKEN_STANDING, BROKEN_TABLE};
use binding::layout::{
    ENTRIES_LISTED, FAR_EDGE, LEG_FLAG, LEG_WORDS, MOST_SITES, empty_table, listed, listed_at,
    number, put_word, records, to_word, word,
};
use reference::hull;
use reference::random::Random;
use service::bytes;
use service::damage::{flipped, regions};
use std::ops::Range;

/// A byte, and the word that is put there.
type Put = (usize, u16);

fn with(table: &[u8], puts: &[Put]) -> Vec<u8> {
    let mut table = table.to_vec();
    for (at, word) in puts {
        put_word(&mut table, *at, *word);
    }
    table
}

/// Words for the standing leg and list of a sound table, each of which is wrong by itself.
fn wrong(table: &[u8]) -> Vec<Put> {
    let entries = number(table, ENTRIES_LISTED);
    let lengths = [0, 1, entries + 1, MOST_SITES, MOST_SITES + 1, 65_535];
    let lengths = lengths.into_iter().filter(|length| *length != entries);
    let mut wrong: Vec<Put> = lengths.map(|n| (ENTRIES_LISTED, to_word(n))).collect();
    if word(table, LEG_FLAG) == 1 {
        let off = |at| [(at, FAR_EDGE + 1), (at, u16::MAX)];
        wrong.extend(LEG_WORDS.into_iter().flat_map(off));
    }
    let held: Vec<u16> = records(table).map(|record| record.number).collect();
    let unheld = (1..).find(|number| !held.contains(number)).unwrap();
    for (i, site) in listed(table).into_iter().enumerate() {
        let other = held.iter().copied().find(|number| *number != site);
        let numbers = [Some(0), Some(unheld), other].into_iter().flatten();
        wrong.extend(numbers.map(|number| (listed_at(i), number)));
    }
    wrong
}

/// With a standing leg, and with a tour or without.
fn with_leg(random: &mut Random, count: usize) -> Vec<u8> {
    loop {
        let table = any_sound(random, count);
        if word(&table, LEG_FLAG) == 1 {
            return table;
        }
    }
}

fn assert_standing(table: &[u8]) {
    assert_eq!(verdict(table), Some(BROKEN_STANDING));
    let told = told(table);
    let is_standing = |line: &String| line.starts_with("standing l");
    assert!(told.iter().all(is_standing), "{told:?}");
}

#[test]
fn each_field_alone_and_with_another() {
    let mut random = Random::new(211);
    for count in [0, 1, 2, 3, 9, 40, 200, MOST_SITES].repeat(2) {
        let table = with_leg(&mut random, count);
        assert_eq!(verdict(&table), None);
        let wrong = wrong(&table);
        assert!(wrong.len() >= 12 + number(&table, ENTRIES_LISTED));
        for put in &wrong {
            assert_standing(&with(&table, &[*put]));
            let other = random.pick(&wrong);
            if other.0 != put.0 {
                assert_standing(&with(&table, &[*put, other]));
            }
        }
    }
}

/// The leg stays on the grid; the second program says which moves leave the list right.
#[test]
fn a_moved_leg() {
    let mut random = Random::new(212);
    let (mut changed, mut same) = (0, 0);
    for count in [0, 1, 2, 5, 20, 100].repeat(20) {
        let table = with_leg(&mut random, count);
        for at in LEG_WORDS {
            let near = word(&table, at).saturating_add(1 + random.index(9) as u16);
            let far = to_word(random.index(usize::from(FAR_EDGE) + 1));
            for moved in [near.min(FAR_EDGE), far] {
                let moved = with(&table, &[(at, moved)]);
                let leg = bytes::leg(&moved).unwrap();
                let list = hull::split_list(&leg, &bytes::sites(&moved));
                let right = list.iter().map(|entry| entry.site).eq(listed(&moved));
                let expected = (!right).then_some(BROKEN_STANDING);
                assert_eq!(verdict(&moved), expected);
                *if right { &mut same } else { &mut changed } += 1;
            }
        }
    }
    assert!(changed > 100 && same > 100, "{changed} {same}");
}

#[test]
fn entries_without_a_leg() {
    let mut random = Random::new(213);
    for count in [0, 1, 9, 100] {
        let table = loop {
            let table = sound(&mut random, count);
            if word(&table, LEG_FLAG) == 0 {
                break table;
            }
        };
        for length in [1, 2, to_word(MOST_SITES), to_word(MOST_SITES) + 1, u16::MAX] {
            assert_standing(&with(&table, &[(ENTRIES_LISTED, length)]));
            let toured = toured(&mut random, &table);
            assert_standing(&with(&toured, &[(ENTRIES_LISTED, length)]));
        }
        // The zeros without a leg, and the flag, are the layout's.
        for at in LEG_WORDS {
            for word in [1, FAR_EDGE, FAR_EDGE + 1] {
                assert_eq!(verdict(&with(&table, &[(at, word)])), Some(BROKEN_TABLE));
            }
        }
        for flag in [2, 256, u16::MAX] {
            assert_eq!(
                verdict(&with(&table, &[(LEG_FLAG, flag)])),
                Some(BROKEN_TABLE)
            );
        }
        // The list of a leg from corner to corner of the grid has an entry where a site is held.
        let set = with(&table, &[(LEG_FLAG, 1)]);
        let expected = (count > 0).then_some(BROKEN_STANDING);
        assert_eq!(verdict(&set), expected);
    }
}

#[test]
fn a_leg_off_the_grid_with_no_site() {
    for at in LEG_WORDS {
        for off in [FAR_EDGE + 1, u16::MAX] {
            let table = with(&empty_table(), &[(LEG_FLAG, 1), (at, off)]);
            assert_standing(&table);
        }
        let edge = with(&empty_table(), &[(LEG_FLAG, 1), (at, FAR_EDGE)]);
        assert_eq!(verdict(&edge), None);
    }
}

/// The standing leg and the length of its list, but not the flag.
const LEG_AND_LENGTH: Range<usize> = LEG_WORDS[0]..ENTRIES_LISTED + 2;

/// Whatever else is broken decides, and where that is nothing the standing leg or list does.
#[test]
fn with_a_bit_flipped_elsewhere() {
    let mut random = Random::new(214);
    let (mut decided, mut left) = (0, 0);
    for count in [0, 1, 3, 9, 12, 40] {
        let table = with_leg(&mut random, count);
        let table = toured(&mut random, &table);
        let wrong = wrong(&table);
        for region in regions(&table) {
            if region.name == "standing list" {
                continue;
            }
            for at in region.bytes.filter(|at| !LEG_AND_LENGTH.contains(at)) {
                let bits = if region.name == "stack" { 1 } else { 3 };
                for _ in 0..bits {
                    let flipped = flipped(&table, at, random.index(8));
                    let alone = verdict(&flipped);
                    let both = with(&flipped, &[random.pick(&wrong)]);
                    assert_eq!(verdict(&both), alone.or(Some(BROKEN_STANDING)));
                    *if alone.is_some() {
                        &mut decided
                    } else {
                        &mut left
                    } += 1;
                }
            }
        }
    }
    assert!(decided > 3_000 && left > 10, "{decided} {left}");
}
