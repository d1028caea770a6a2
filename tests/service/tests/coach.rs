//! The C example: the stored text is what the second program answers to the same commands, and
//! with the feature `proved` the example is compiled, linked and run.

use reference::book::Book;
use reference::command::{add, list, print, remove, stand};
use reference::grid::{HALF_WIDTH, Leg, Site};
use reference::record::Record;
use std::path::{Path, PathBuf};
use std::process::Command;

const REFUSALS: [&str; 9] = [
    "",
    "number 0 is no stop's",
    "it is off the grid",
    "the number is already held",
    "the number is not held",
    "the table is full",
    "no stop is held",
    "no leg is standing",
    "no tour is under way",
];

fn at_root(path: &str) -> PathBuf {
    Path::new(env!("CARGO_MANIFEST_DIR"))
        .join("../..")
        .join(path)
}

fn stored_text() -> String {
    std::fs::read_to_string(at_root("examples/coach.expected")).unwrap()
}

fn outcome(book: &mut Book, command: Vec<u8>) -> String {
    match book.records(&[command])[..] {
        [Record::Refused(number)] => {
            let why = REFUSALS[usize::from(number)];
            format!("refused, {why}\n")
        }
        _ => "done\n".to_string(),
    }
}

fn in_words(book: &mut Book, command: Vec<u8>) -> String {
    let Some(Record::List(list)) = book.records(std::slice::from_ref(&command)).pop() else {
        return format!("  {}", outcome(book, command));
    };
    let mut text = String::new();
    for entry in list {
        let start = entry.start;
        let from = match start.numerator {
            0 => "the start".to_string(),
            part => format!("{part}/{} of the way", start.denominator),
        };
        text += &format!("  stop {} from {from}\n", entry.site);
    }
    text
}

fn addition(book: &mut Book, site: Site) -> String {
    let (number, at) = (site.number, site.position);
    let done = outcome(book, add(site));
    format!("Add stop {number} at ({},{}): {done}", at.east, at.north)
}

fn removal(book: &mut Book, number: u16) -> String {
    format!("Remove stop {number}: {}", outcome(book, remove(number)))
}

fn ends(leg: Leg) -> String {
    let Leg { s, e } = leg;
    format!("leg ({},{}) to ({},{})", s.east, s.north, e.east, e.north)
}

fn standing(book: &mut Book) -> String {
    format!("The standing leg:\n{}", in_words(book, print()))
}

#[test]
fn the_stored_text_is_what_the_second_program_answers() {
    let sites = [
        Site::new(1, 2, 3),
        Site::new(2, 7, 1),
        Site::new(3, 9, -4),
        Site::new(4, -60, 80),
        Site::new(5, 120, 50),
        Site::new(6, 300, 0),
        Site::new(2, 0, 0),
        Site::new(7, HALF_WIDTH + 1, 0),
        Site::new(8, -HALF_WIDTH, HALF_WIDTH),
    ];
    let leg = Leg::new((0, 0), (10, 0));
    let mut book = Book::new();
    let mut text = standing(&mut book);
    text += &format!("Stand on the {}: ", ends(leg));
    text += &outcome(&mut book, stand(leg));
    text += &standing(&mut book);
    for site in sites {
        text += &addition(&mut book, site);
    }
    text += &standing(&mut book);
    for leg in [
        Leg::new((-100, 100), (400, 0)),
        Leg::new((400, 0), (400, 0)),
    ] {
        text += &format!("The {}:\n", ends(leg));
        text += &in_words(&mut book, list(leg));
    }
    text += &removal(&mut book, 2);
    text += &standing(&mut book);
    text += &removal(&mut book, 2);
    assert_eq!(text, stored_text());
}

/// The C compiler with all warnings as errors, on the example and the header.
fn compiler() -> Command {
    let mut compiler = Command::new("cc");
    compiler.args(["-std=c11", "-Wall", "-Wextra", "-pedantic", "-Werror"]);
    compiler.arg("-I").arg(at_root("include"));
    compiler.arg(at_root("examples/coach.c"));
    compiler
}

#[test]
fn the_example_and_the_header_compile_without_a_warning() {
    let status = compiler().arg("-fsyntax-only").status().unwrap();
    assert!(status.success());
}

#[cfg(feature = "proved")]
#[test]
fn the_example_linked_with_the_proved_service_prints_the_stored_text() {
    let program = Path::new(env!("CARGO_TARGET_TMPDIR")).join("coach");
    let mut compiler = compiler();
    // Remainders of readings are the C library's.
    compiler
        .arg(at_root("target/staticlib/libhost.a"))
        .arg("-lm");
    let status = compiler.arg("-o").arg(&program).status().unwrap();
    assert!(status.success());
    let output = Command::new(&program).output().unwrap();
    assert!(output.status.success(), "{output:?}");
    assert_eq!(String::from_utf8(output.stdout).unwrap(), stored_text());
}
