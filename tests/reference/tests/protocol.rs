//! docs/PROTOCOL.md says what the second program does: marks, lengths, refusals, and the example.

use reference::batch_program;
use reference::book::Book;
use reference::command::{
    Command, add, add_readings, begin, corner, list, move_readings, move_site, print, remove, stand,
};
use reference::grid::{HALF_WIDTH, Leg, Position, Site};
use reference::reading::Readings;
use reference::readings::{FIRST_OFF_GRID, INFINITY, ZERO, metres};
use reference::record::Record;
use std::path::Path;

/// The cells of the rows of every table.
fn rows() -> Vec<Vec<String>> {
    let text = text();
    let rows = text.lines().filter(|line| line.starts_with("| "));
    rows.map(cells).collect()
}

fn cells(line: &str) -> Vec<String> {
    line.split('|')
        .map(|cell| cell.trim().to_string())
        .collect()
}

fn text() -> String {
    let file = Path::new(env!("CARGO_MANIFEST_DIR")).join("../../docs/PROTOCOL.md");
    std::fs::read_to_string(file).unwrap()
}

fn bytes(line: &str) -> Vec<u8> {
    let byte = |word| u8::from_str_radix(word, 16).unwrap();
    line.split_whitespace().map(byte).collect()
}

#[test]
fn each_example_is_the_batch_programs() {
    let text = text();
    let is_bytes = |line: &&str| line.starts_with("    ") && !line.trim().is_empty();
    let shown: Vec<Vec<u8>> = text.lines().filter(is_bytes).map(bytes).collect();
    assert!(
        !shown.is_empty() && shown.len().is_multiple_of(2),
        "{shown:?}"
    );
    for example in shown.chunks(2) {
        assert_eq!(batch_program::run(&example[0]), example[1]);
    }
}

/// A command of each mark that meets all causes of its row that can go together, from the last on.
fn refused(mark: u8, book: &mut Book) -> Vec<(u8, Vec<u8>)> {
    let off = Leg::new((0, 0), (0, HALF_WIDTH + 1));
    let on = Leg::new((0, 0), (0, 1));
    let here = metres(0, 0);
    let beyond = Readings::new(FIRST_OFF_GRID, ZERO);
    let not_finite = Readings::new(FIRST_OFF_GRID, INFINITY);
    let full = |book: &mut Book| {
        let nth = |number| add(Site::new(number, 0, 0));
        book.records(&(1..=512).map(nth).collect::<Vec<_>>());
    };
    match mark {
        0x41 => {
            full(book);
            vec![
                (5, add(Site::new(600, 0, 0))),
                (3, add(Site::new(1, 0, 0))),
                (2, add(Site::new(1, HALF_WIDTH + 1, 0))),
                (1, add(Site::new(0, HALF_WIDTH + 1, 0))),
            ]
        }
        0x61 => {
            full(book);
            vec![
                (5, add_readings(600, here)),
                (3, add_readings(1, here)),
                (2, add_readings(1, beyond)),
                (11, add_readings(1, not_finite)),
                (1, add_readings(0, not_finite)),
            ]
        }
        0x6D => vec![
            (4, move_readings(9, here)),
            (2, move_readings(9, beyond)),
            (11, move_readings(9, not_finite)),
            (1, move_readings(0, not_finite)),
        ],
        0x44 => vec![(4, remove(9)), (1, remove(0))],
        0x4D => vec![
            (4, move_site(Site::new(9, 0, 0))),
            (2, move_site(Site::new(9, 0, HALF_WIDTH + 1))),
            (1, move_site(Site::new(0, 0, HALF_WIDTH + 1))),
        ],
        0x4C => vec![(6, list(on)), (2, list(off))],
        0x53 => vec![(2, stand(off))],
        0x42 => vec![(2, begin(off.e))],
        // Of those in a tour below.
        0x43 => vec![(8, corner(off.e))],
        _ => vec![(7, print())],
    }
}

/// What a command of this mark gets when the cause that comes before is gone.
fn refused_later(mark: u8, book: &mut Book) -> Vec<(u8, Vec<u8>)> {
    let (on, off) = (Position::new(0, 0), Position::new(0, HALF_WIDTH + 1));
    match mark {
        0x50 => {
            book.records(&[stand(Leg { s: on, e: on })]);
            vec![(6, print())]
        }
        0x43 => {
            book.records(&[begin(on)]);
            vec![(2, corner(off)), (6, corner(on))]
        }
        _ => vec![],
    }
}

#[test]
fn commands_have_these_lengths_and_refusals_in_this_order() {
    let mut marks = Vec::new();
    for row in rows()
        .iter()
        .filter(|row| row.len() == 8 && row[2].len() == 1)
    {
        let (mark, letter) = (bytes(&row[1])[0], &row[2]);
        assert_eq!(char::from(mark).to_string(), *letter);
        let length: usize = row[4].parse().unwrap();
        let long = [&[mark][..], &[0; 20]].concat();
        assert_eq!(Command::read(&long).unwrap().1, length);
        let mut book = Book::new();
        let mut given: Vec<String> = Vec::new();
        for (number, command) in refused(mark, &mut book) {
            assert_eq!(book.records(&[command]), [Record::Refused(number)]);
            given.insert(0, number.to_string());
        }
        for (number, command) in refused_later(mark, &mut book) {
            assert_eq!(book.records(&[command]), [Record::Refused(number)]);
            given.push(number.to_string());
        }
        assert_eq!(row[6], given.join(", "), "{letter}");
        marks.push(mark);
    }
    marks.sort();
    let known = [0x41, 0x42, 0x43, 0x44, 0x4C, 0x4D, 0x50, 0x53, 0x61, 0x6D];
    assert_eq!(marks, known);
}

#[test]
fn every_refusal_and_reason_is_told() {
    let first: Vec<String> = rows().iter().map(|row| row[1].clone()).collect();
    for number in [
        "1", "2", "3", "4", "5", "6", "7", "8", "11", "64", "65", "66", "67", "68", "69",
    ] {
        assert!(first.iter().any(|cell| cell == number), "{number}");
    }
}
