//! The inline functions of include/stops.h write the second program's commands and read its
//! records, and its reasons and refusals have the second program's numbers.

use reference::book::{
    ALL_USED, Book, CUT_COMMAND, NO_ROOM, REFUSALS, UNKNOWN_COMMAND, WRONG_LENGTH,
};
use reference::command::{self, Command as Bytes};
use reference::grid::{HALF_WIDTH, Leg, Site};
use reference::random::{self, Random};
use reference::reading::Readings;
use reference::readings::{ODD, ZERO};
use reference::record::Record;
use service::{BROKEN_STANDING, BROKEN_TABLE};
use std::io::Write;
use std::path::{Path, PathBuf};
use std::process::{Command, Stdio};
use std::thread;

fn at_root(path: &str) -> PathBuf {
    Path::new(env!("CARGO_MANIFEST_DIR"))
        .join("../..")
        .join(path)
}

/// The small C program, compiled for this test alone; all warnings are errors.
fn program(name: &str) -> PathBuf {
    let program = Path::new(env!("CARGO_TARGET_TMPDIR")).join(name);
    let mut compiler = Command::new("cc");
    compiler.args(["-std=c99", "-Wall", "-Wextra", "-pedantic", "-Werror"]);
    // What is read or written past a buffer ends the program.
    compiler.args([
        "-g",
        "-fsanitize=address,undefined",
        "-fno-sanitize-recover",
    ]);
    compiler.arg("-I").arg(at_root("include"));
    compiler.arg(at_root("tests/service/c/header.c"));
    assert!(compiler.arg("-o").arg(&program).status().unwrap().success());
    program
}

fn run(program: &Path, mode: &str, input: &[u8]) -> Vec<u8> {
    let mut child = Command::new(program)
        .arg(mode)
        // Looking for leaks needs rights that not every container gives; nothing is allocated.
        .env("ASAN_OPTIONS", "detect_leaks=0")
        .stdin(Stdio::piped())
        .stdout(Stdio::piped())
        .spawn()
        .unwrap();
    let mut stdin = child.stdin.take().unwrap();
    let output = thread::scope(|scope| {
        scope.spawn(move || stdin.write_all(input));
        child.wait_with_output().unwrap()
    });
    assert!(output.status.success());
    output.stdout
}

/// The mark and four numbers; readings by their patterns.
fn line(command: &[u8]) -> String {
    let mark = char::from(command[0]);
    let [a, b, c, d] = match Bytes::read(command).unwrap().0 {
        Bytes::Add(site) | Bytes::Move(site) => {
            let at = site.position;
            [i64::from(site.number), at.east, at.north, 0]
        }
        Bytes::Remove(number) => [i64::from(number), 0, 0, 0],
        Bytes::List(leg) | Bytes::Stand(leg) => [leg.s.east, leg.s.north, leg.e.east, leg.e.north],
        Bytes::Print => [0; 4],
        Bytes::Begin(corner) | Bytes::Corner(corner) => [corner.east, corner.north, 0, 0],
        Bytes::AddReadings(number, readings) | Bytes::MoveReadings(number, readings) => {
            let Readings { east, north } = readings;
            [number.into(), east.0.into(), north.0.into(), 0]
        }
    };
    format!("{mark} {a} {b} {c} {d}\n")
}

#[test]
fn commands_are_the_second_programs() {
    let program = program("header_write");
    let mut random = Random::new(181);
    let mut commands = random::commands(&mut random, 2_000);
    for edge in [-32_768, -HALF_WIDTH - 1, -1, 0, 255, 256, 32_767] {
        let site = Site::new(65_535, edge, -1 - edge);
        let leg = Leg::new((edge, 1), (-1 - edge, edge));
        commands.extend([command::add(site), command::move_site(site)]);
        commands.extend([command::list(leg), command::stand(leg)]);
        commands.extend([command::begin(leg.s), command::corner(leg.e)]);
    }
    commands.extend([command::remove(0), command::remove(65_535)]);
    // What is not finite is sent as it is.
    for odd in ODD {
        commands.push(command::add_readings(65_535, Readings::new(odd, ZERO)));
        commands.push(command::move_readings(0, Readings::new(ZERO, odd)));
    }
    let lines: String = commands.iter().map(|command| line(command)).collect();
    assert!(run(&program, "write", lines.as_bytes()) == commands.concat());
}

#[test]
fn what_fits_no_word_is_not_written() {
    let program = program("header_misfits");
    let misfits = "A 65536 0 0 0\nA -1 0 0 0\nA 1 32768 0 0\nA 1 0 -32769 0\nM 1 0 65536 0\n\
                   D 65536 0 0 0\nD -1 0 0 0\nL 32768 0 0 0\nL 0 -32769 0 0\nL 0 0 99999 0\n\
                   S 0 0 0 32768\nS 0 0 -40000 0\nB 32768 0 0 0\nB 0 -32769 0 0\n\
                   C -32769 0 0 0\nC 0 65536 0 0\na 65536 0 0 0\na -1 0 0 0\n\
                   m 65536 0 0 0\nm -1 0 0 0\nP 0 0 0 0\n";
    assert_eq!(run(&program, "write", misfits.as_bytes()), b"P");
}

#[test]
fn both_forms_of_the_version_agree() {
    let said = run(&program("header_version"), "version", b"");
    let said = String::from_utf8(said).unwrap();
    let (text, number) = said.trim().split_once(' ').unwrap();
    let parts: Vec<u32> = text.split('.').map(|part| part.parse().unwrap()).collect();
    let [first, second, third] = parts[..] else {
        panic!("{text}");
    };
    assert_eq!(number, (10_000 * first + 100 * second + third).to_string());
}

/// In the order in which they are tested, but for 0.
#[test]
fn reasons_are_the_second_programs() {
    let commands = [UNKNOWN_COMMAND, CUT_COMMAND, NO_ROOM].map(u32::from);
    let tables = [WRONG_LENGTH.into(), BROKEN_TABLE, BROKEN_STANDING];
    let reasons = [&[u32::from(ALL_USED)][..], &tables, &commands].concat();
    let said = numbers("reasons");
    assert_eq!(said, reasons);
    assert_eq!(said, [0, 64, 65, 69, 66, 67, 68]);
}

#[test]
fn refusals_are_the_second_programs() {
    let said = numbers("refusals");
    assert_eq!(said, REFUSALS.map(u32::from));
    assert_eq!(said, [1, 2, 3, 4, 5, 6, 7, 8, 11]);
}

/// What the program prints in this mode.
fn numbers(mode: &str) -> Vec<u32> {
    let said = run(&program(&format!("header_{mode}")), mode, b"");
    let said = String::from_utf8(said).unwrap();
    let number = |word: &str| word.parse().unwrap();
    said.split_whitespace().map(number).collect()
}

fn in_words(record: &Record) -> String {
    match record {
        Record::Accepted => "+ 0 0\n".into(),
        Record::Refused(number) => format!("! {number} 0\n"),
        Record::List(list) => {
            let mut words = format!("= 0 {}\n", list.len());
            for entry in list {
                let (n, d) = (entry.start.numerator, entry.start.denominator);
                words += &format!("{} {n} {d}\n", entry.site);
            }
            words
        }
    }
}

#[test]
fn records_are_read_as_the_second_program_writes_them() {
    let program = program("header_read");
    let mut random = Random::new(182);
    let mut book = Book::new();
    let mut records = book.records(&random::commands(&mut random, 1_500));
    // From corner to corner: 31 bits do not hold the denominator.
    let corner = Site::new(65_535, HALF_WIDTH, HALF_WIDTH);
    let leg = Leg::new((-HALF_WIDTH, -HALF_WIDTH), (HALF_WIDTH, HALF_WIDTH));
    let beside = Site::new(1, 1 - HALF_WIDTH, -HALF_WIDTH);
    let commands = [
        command::add(corner),
        command::add(beside),
        command::list(leg),
    ];
    records.extend(Book::new().records(&commands));
    assert!(in_words(&records[records.len() - 1]).ends_with(" 2303952000\n"));
    let bytes: Vec<u8> = records.iter().flat_map(Record::bytes).collect();
    let mut expected: String = records.iter().map(in_words).collect();
    expected += &format!("{} bytes read\n", bytes.len());
    assert_eq!(
        String::from_utf8(run(&program, "read", &bytes)).unwrap(),
        expected
    );
}

#[test]
fn a_cut_record_is_not_read() {
    let program = program("header_cut");
    let mut random = Random::new(183);
    let records = Book::new().records(&random::commands(&mut random, 40));
    let bytes: Vec<u8> = records.iter().flat_map(Record::bytes).collect();
    for length in 0..bytes.len() {
        let mut whole = 0;
        while let Some((_, next)) = Record::read(&bytes[whole..length]) {
            whole += next;
        }
        let said = String::from_utf8(run(&program, "read", &bytes[..length])).unwrap();
        assert!(said.ends_with(&format!("{whole} bytes read\n")), "{said}");
    }
    assert_eq!(run(&program, "read", &[0x2E, 0]), b"0 bytes read\n");
}
