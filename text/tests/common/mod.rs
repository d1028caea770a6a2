//! Runs the program, and writes commands as lines.
#![allow(dead_code)] // Each test file uses its part.

use reference::fraction::Fraction;
pub use reference::grid::HALF_WIDTH;
use reference::record::Record;
use std::io::Write;
use std::path::{Path, PathBuf};
use std::process::{Command, Stdio};
use std::thread;

pub const PROGRAM: &str = env!("CARGO_BIN_EXE_stops-text");

/// One step past it.
pub const OFF_GRID: i64 = HALF_WIDTH + 1;

/// The grid's coordinates, as messages have them.
pub fn span() -> String {
    assert_eq!(HALF_WIDTH % 1_000, 0);
    let most = format!("{},000", HALF_WIDTH / 1_000);
    format!("-{most} to {most}")
}

pub struct Ran {
    pub code: i32,
    pub out: Vec<u8>,
    pub err: String,
}

impl Ran {
    pub fn text(&self) -> &str {
        std::str::from_utf8(&self.out).expect("answers are text")
    }
}

pub fn run(arguments: &[&str], input: impl AsRef<[u8]>) -> Ran {
    run_program(Command::new(PROGRAM).args(arguments), input.as_ref())
}

pub fn run_program(command: &mut Command, input: &[u8]) -> Ran {
    let mut child = command
        .stdin(Stdio::piped())
        .stdout(Stdio::piped())
        .stderr(Stdio::piped())
        .spawn()
        .unwrap_or_else(|error| panic!("{command:?}: {error}"));
    let mut stdin = child.stdin.take().unwrap();
    let output = thread::scope(|scope| {
        // A program that ends early does not read everything.
        scope.spawn(move || stdin.write_all(input));
        child.wait_with_output().unwrap()
    });
    Ran {
        code: output.status.code().expect("no signal ends the program"),
        out: output.stdout,
        err: String::from_utf8(output.stderr).expect("messages are text"),
    }
}

/// A table's file of this name, which is not there yet.
pub fn table(name: &str) -> PathBuf {
    let folder = scratch(&format!("table {name}"));
    let _ = std::fs::remove_dir_all(&folder);
    std::fs::create_dir_all(&folder).unwrap();
    folder.join("kept.stops")
}

pub fn on(file: &Path, options: &[&str], input: &str) -> Ran {
    let mut program = Command::new(PROGRAM);
    program.arg("--table").arg(file).args(options);
    run_program(&mut program, input.as_bytes())
}

pub fn file_mode(mode: &str, file: &Path) -> Ran {
    run_program(Command::new(PROGRAM).arg(mode).arg(file), b"")
}

/// The batch program's output.
pub fn batch_program(commands: &[u8]) -> Vec<u8> {
    let ran = run_program(&mut Command::new(at_root("target/package/stops")), commands);
    assert_eq!(ran.code, 0);
    ran.out
}

pub fn at_root(path: &str) -> PathBuf {
    Path::new(env!("CARGO_MANIFEST_DIR")).join("..").join(path)
}

/// A file of this name in a folder of the running test; tests of one file run side by side.
pub fn scratch(name: &str) -> PathBuf {
    let thread = thread::current();
    let test = thread.name().expect("a test's thread has its name");
    let folder = Path::new(env!("CARGO_TARGET_TMPDIR")).join(test);
    std::fs::create_dir_all(&folder).unwrap();
    folder.join(name)
}

/// The line that asks for a command, from its bytes.
pub fn line(command: &[u8]) -> String {
    let (mark, operands) = command.split_first().expect("a whole command");
    if let Some(word) = word_of_readings(*mark) {
        return line_of_readings(word, operands);
    }
    let (word, numbered, words) = match mark {
        b'A' => ("add", true, 3),
        b'M' => ("move", true, 3),
        b'D' => ("remove", true, 1),
        b'L' => ("leg", false, 4),
        b'S' => ("stand", false, 4),
        b'P' => ("print", false, 0),
        b'B' => ("tour", false, 2),
        b'C' => ("corner", false, 2),
        _ => panic!("no command has the mark {mark:02X}"),
    };
    assert_eq!(operands.len(), 2 * words);
    let mut line = word.to_string();
    for (i, bytes) in operands.chunks(2).enumerate() {
        let number = i16::from_le_bytes([bytes[0], bytes[1]]);
        line += &match (numbered, i) {
            (true, 0) => format!(" {}", number.cast_unsigned()),
            _ => format!(" {number}"),
        };
    }
    line + "\n"
}

/// Where the mark is that of a command with readings.
fn word_of_readings(mark: u8) -> Option<&'static str> {
    match mark {
        0x61 => Some("add"),
        0x6D => Some("move"),
        _ => None,
    }
}

fn line_of_readings(word: &str, operands: &[u8]) -> String {
    assert_eq!(operands.len(), 10);
    let number = u16::from_le_bytes([operands[0], operands[1]]);
    let reading = |at: usize| {
        let bytes = [0, 1, 2, 3].map(|i| operands[at + i]);
        reading(u32::from_le_bytes(bytes))
    };
    format!("{word} {number} {} {}\n", reading(2), reading(6))
}

/// A word for the reading with these bits.
pub fn reading(bits: u32) -> String {
    match f32::from_bits(bits) {
        metres if metres.is_finite() => format!("{metres}m"),
        _ => format!("0x{bits:08X}m"),
    }
}

pub fn lines(commands: &[Vec<u8>]) -> String {
    commands.iter().map(|command| line(command)).collect()
}

fn refusal(number: u8) -> String {
    let words = match number {
        1 => "site number 0",
        2 => return format!("a coordinate outside {}", span()),
        3 => "number already held",
        4 => "number not held",
        5 => "512 sites held",
        6 => "no site held",
        7 => "no standing leg",
        8 => "no tour under way",
        11 => "a reading is not a finite number",
        _ => panic!("no refusal has the number {number}"),
    };
    words.into()
}

/// What --plain says of a list without its first entry, where its commands are not known.
pub const STILL: &str = "still the last site of the tour's earlier records";

/// The answers without points that --plain gives to these commands.
pub fn answers(commands: &[Vec<u8>], records: &[Record]) -> String {
    answers_from(None, commands, records)
}

/// The same, with the last site of the earlier records of a tour that is under way.
pub fn answers_from(last: Option<u16>, commands: &[Vec<u8>], records: &[Record]) -> String {
    let (mut last, mut answers) = (last, String::new());
    for (command, record) in commands.iter().zip(records) {
        answers += &in_words(record, last);
        last = match (command[0], record) {
            (b'A' | b'B' | b'D' | b'M' | 0x61 | 0x6D, Record::Accepted) => None,
            (b'C', Record::List(list)) => list.last().map(|entry| entry.site).or(last),
            _ => last,
        };
    }
    answers
}

/// The answer without points that --plain gives, with the last site of the tour's earlier records.
pub fn in_words(record: &Record, last: Option<u16>) -> String {
    match record {
        Record::Accepted => "accepted\n".into(),
        Record::Refused(number) => format!("refused {number}: {}\n", refusal(*number)),
        Record::List(list) => {
            let noun = if list.len() == 1 { "entry" } else { "entries" };
            let mut text = format!("list of {} {noun}\n", list.len());
            if list.first().is_none_or(|entry| entry.start.numerator > 0) {
                let last = last.expect("the first entry is left out for a site");
                text += &format!("still site {last}\n");
            }
            for entry in list {
                let Fraction {
                    numerator,
                    denominator,
                } = entry.start;
                text += &format!("from {numerator}/{denominator} site {}\n", entry.site);
            }
            text
        }
    }
}

/// The answers where neither legs nor tours are known.
pub fn alone(answers: &str) -> String {
    let still = |line: &str| match line.starts_with("still site ") {
        true => format!("{STILL}\n"),
        false => format!("{line}\n"),
    };
    without_points(answers).lines().map(still).collect()
}

/// The answers without the points of starts.
pub fn without_points(answers: &str) -> String {
    let line = |line: &str| match (line.find('('), line.find(") ")) {
        (Some(from), Some(to)) => format!("{}{}\n", &line[..from], &line[to + 2..]),
        _ => format!("{line}\n"),
    };
    answers.lines().map(line).collect()
}
