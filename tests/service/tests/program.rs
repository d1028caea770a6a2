//! The batch program target/package/stops, from input to output bytes, beside the second program's; and
//! what it does when its streams fail.
#![cfg(feature = "proved")]

use reference::batch_program;
use reference::command::{add, add_readings, begin, corner, move_readings, print, stand};
use reference::grid::{HALF_WIDTH, INPUT_LEN, Leg, MOST_SITES, Site, spread};
use reference::random::{self, Random};
use reference::reading::{Reading, Readings};
use reference::readings::{self, ODD, metres};
use reference::record::ENTRY_LEN;
use reference::tours::at;
use service::desk::LONGEST_RECORD;
use service::draw::{Pool, unknown_byte};
use std::fs::File;
use std::io::{self, Read, Write};
use std::os::unix::process::ExitStatusExt;
use std::path::{Path, PathBuf};
use std::process::{Command, Output, Stdio};
use std::sync::LazyLock;
use std::thread;
use std::time::Duration;

const PROGRAM: &str = concat!(env!("CARGO_MANIFEST_DIR"), "/../../target/package/stops");
const MEGABYTES: usize = 3;

/// What the program prints when its input comes in these pieces, a moment apart.
fn run_in_pieces(pieces: &[&[u8]]) -> Vec<u8> {
    let mut program = Command::new(PROGRAM)
        .stdin(Stdio::piped())
        .stdout(Stdio::piped())
        .spawn()
        .expect("target/package/stops is built");
    let mut input = program.stdin.take().unwrap();
    let mut output = Vec::new();
    thread::scope(|scope| {
        scope.spawn(move || {
            for (i, piece) in pieces.iter().enumerate() {
                if i > 0 {
                    thread::sleep(Duration::from_millis(2));
                }
                // After 66 the program reads no further.
                if input.write_all(piece).is_err() {
                    break;
                }
            }
        });
        let mut printed = program.stdout.take().unwrap();
        printed.read_to_end(&mut output).unwrap();
    });
    assert!(program.wait().unwrap().success());
    output
}

fn assert_prints(input: &[u8]) -> Vec<u8> {
    let output = run_in_pieces(&[input]);
    assert!(output == batch_program::run(input), "{input:02X?}");
    output
}

#[test]
fn the_example_of_document_01() {
    let input = [
        0x41, 0x01, 0x00, 0x02, 0x00, 0x03, 0x00, 0x41, 0x02, 0x00, 0x07, 0x00, 0x01, 0x00, 0x4C,
        0x00, 0x00, 0x00, 0x00, 0x0A, 0x00, 0x00, 0x00,
    ];
    let output = [
        0x2B, 0x2B, 0x3D, 0x02, 0x00, 0x01, 0x00, 0x00, 0x00, 0x00, 0x00, 0x01, 0x00, 0x00, 0x00,
        0x02, 0x00, 0x25, 0x00, 0x00, 0x00, 0x64, 0x00, 0x00, 0x00, 0x2E, 0x00,
    ];
    assert_eq!(assert_prints(&input), output);
}

#[test]
fn an_input_cut_at_every_byte() {
    let mut random = Random::new(121);
    let input = random::commands(&mut random, 60).concat();
    for length in 0..=input.len() {
        assert_prints(&input[..length]);
    }
}

#[test]
fn an_input_in_pieces_cut_at_every_byte_of_its_commands() {
    let mut random = Random::new(122);
    let input = random::commands(&mut random, 40).concat();
    let expected = batch_program::run(&input);
    for at in 0..=input.len().min(120) {
        let (first, second) = input.split_at(at);
        assert_eq!(run_in_pieces(&[first, second]), expected, "{at}");
    }
    let crumbs: Vec<&[u8]> = input.chunks(1).collect();
    assert_eq!(run_in_pieces(&crumbs), expected);
}

/// A 61 and a 6D behind a list, and one more of either behind them.
fn with_readings() -> Vec<u8> {
    let here = metres(150, -250);
    let half = Readings::new(Reading(0x4247_FFFF), Reading(0xC248_0000));
    let leg = Leg::new((0, 0), (10, 0));
    [
        add(Site::new(1, 2, 3)),
        stand(leg),
        print(),
        add_readings(2, here),
        print(),
        move_readings(2, half),
        print(),
        add_readings(3, half),
        move_readings(9, here),
    ]
    .concat()
}

/// The input ends there, or comes in two pieces that are joined.
#[test]
fn readings_cut_at_every_byte() {
    let input = with_readings();
    let whole = assert_prints(&input);
    assert_eq!(whole[whole.len() - 5..], [0x2B, 0x21, 0x04, 0x2E, 0]);
    let mut ended_by_67 = 0;
    for at in 0..=input.len() {
        let (first, second) = input.split_at(at);
        let output = assert_prints(first);
        ended_by_67 += usize::from(output[output.len() - 1] == 67);
        assert_eq!(run_in_pieces(&[first, second]), whole, "{at}");
    }
    // Each command but one that is a mark alone can be cut before each byte but its first.
    assert_eq!(ended_by_67, 6 + 8 + 4 * 10);
    let crumbs: Vec<&[u8]> = input.chunks(1).collect();
    assert_eq!(run_in_pieces(&crumbs), whole);
}

#[test]
fn readings_to_try() {
    for tried in readings::all() {
        let (commands, records): (Vec<_>, Vec<_>) = tried.steps.into_iter().unzip();
        let output = assert_prints(&commands.concat());
        let mut expected: Vec<u8> = records.iter().flat_map(|record| record.bytes()).collect();
        expected.extend([0x2E, 0]);
        assert_eq!(output, expected, "{}", tried.what);
    }
}

/// The longest commands, so that the buffer's end cuts them everywhere; odd readings among them.
#[test]
fn readings_across_the_end_of_the_input_buffer() {
    for prints in 0..11 {
        let mut input = print().repeat(prints);
        for number in 1..=700 {
            let odd = ODD[usize::from(number) % ODD.len()];
            input.extend(add_readings(number, metres(100 * i64::from(number), 49)));
            input.extend(move_readings(number, Readings::new(odd, odd)));
        }
        assert!(input.len() > 3 * INPUT_LEN);
        assert_prints(&input);
    }
}

#[test]
fn commands_across_the_end_of_the_input_buffer() {
    // The leading prints shift where the buffer's end cuts the commands.
    for prints in 0..10 {
        let mut random = Random::new(123);
        let mut input = print().repeat(prints);
        input.extend(random::commands(&mut random, 2_500).concat());
        assert!(input.len() > 3 * INPUT_LEN);
        assert_prints(&input);
    }
}

#[test]
fn an_unknown_byte_ends_the_program() {
    let mut random = Random::new(124);
    for nth in 0..40 {
        let mut input = random::commands(&mut random, 25 * nth).concat();
        input.push(unknown_byte(&mut random));
        input.extend(random::commands(&mut random, 2_000).concat());
        let output = assert_prints(&input);
        assert_eq!(output[output.len() - 2..], [0x2E, 66]);
    }
    // More than a pipe holds follows.
    let input = [vec![0x51], print().repeat(1 << 20)].concat();
    assert_eq!(run_in_pieces(&[&input]), [0x2E, 66]);
}

#[test]
fn full_buffers_of_refusals() {
    for length in [INPUT_LEN - 1, INPUT_LEN, INPUT_LEN + 1, 2 * INPUT_LEN] {
        let output = assert_prints(&print().repeat(length));
        assert_eq!(output.len(), 2 * length + 2);
    }
}

/// 512 sites that are all listed, and lists between changes.
#[test]
fn the_longest_lists() {
    let mut input = stand(Leg::new((-HALF_WIDTH, 0), (HALF_WIDTH, 0)));
    let nth = |number: u16| add(Site::new(number, spread(number.into()), 0));
    input.extend((1..=512).flat_map(nth));
    for prints in [1, 2, 3, 700] {
        let output = assert_prints(&[&input[..], &print().repeat(prints)].concat());
        assert_eq!(output.len(), 1 + MOST_SITES + prints * LONGEST_RECORD + 2);
    }
}

/// Each leg's record is longer than half the report buffer, so that each but the first is asked for
/// again after 68.
#[test]
fn a_tour_of_the_longest_lists() {
    let nth = |number: u16| add(Site::new(number, spread(number.into()), 0));
    let mut input = (1..=512).flat_map(nth).collect::<Vec<u8>>();
    let (west, east) = (at(-HALF_WIDTH, 0), at(HALF_WIDTH, 0));
    input.extend(begin(west));
    for _ in 0..20 {
        input.extend([corner(east), corner(west), corner(west)].concat());
    }
    let output = assert_prints(&input);
    let records = 20 * (2 * (LONGEST_RECORD - ENTRY_LEN) + 3) + ENTRY_LEN;
    assert_eq!(output.len(), MOST_SITES + 1 + records + 2);
}

#[test]
fn megabytes() {
    let mut random = Random::new(125);
    let pool = Pool::new(&mut random, 60);
    let mut input = Vec::new();
    while input.len() < MEGABYTES << 20 {
        input.extend(pool.commands(&mut random, 1_000).concat());
    }
    let output = assert_prints(&input);
    assert_eq!(output[output.len() - 2..], [0x2E, 0]);
}

/// What the program does with these arguments, and a command that it may leave unread.
fn run_with(arguments: &[&str]) -> Output {
    run(
        Command::new(PROGRAM).args(arguments),
        Stdio::piped(),
        &print(),
    )
}

#[test]
fn the_version_is_that_of_the_header_and_the_changes() {
    let root = Path::new(env!("CARGO_MANIFEST_DIR")).join("../..");
    let text = |file: &str| std::fs::read_to_string(root.join(file)).unwrap();
    let output = run_with(&["--version"]);
    let line = str::from_utf8(&output.stdout).unwrap();
    let version = line
        .strip_prefix("stops ")
        .unwrap()
        .strip_suffix('\n')
        .unwrap();
    assert_eq!((said(&output), output.status.code()), ("", Some(0)));
    assert!(text("include/stops.h").contains(&format!("#define STOPS_VERSION \"{version}\"\n")));
    let changes = text("docs/CHANGELOG.md");
    let newest = changes
        .lines()
        .find(|line| line.starts_with("## "))
        .unwrap();
    assert!(newest.starts_with(&format!("## {version}, ")), "{newest}");
}

#[test]
fn any_other_argument_is_told_the_usage_and_no_end_mark() {
    let long = "x".repeat(5_000);
    for argument in [
        "",
        "-",
        "--help",
        "--versio",
        "--versions",
        "--Version",
        &long,
    ] {
        let output = run_with(&[argument]);
        let usage = "usage: stops < COMMANDS > RECORDS, or stops --version\n";
        assert_eq!((said(&output), output.stdout.len()), (usage, 0));
    }
}

// Streams that fail. A run that breaks off says why on standard error, once, and has no end mark.

/// What a program does with this input, which it may leave unread.
fn run(program: &mut Command, stdout: impl Into<Stdio>, input: &[u8]) -> Output {
    let program = program.stdin(Stdio::piped()).stdout(stdout);
    let mut child = program.stderr(Stdio::piped()).spawn().unwrap();
    let mut pipe = child.stdin.take().unwrap();
    thread::scope(|scope| {
        scope.spawn(move || pipe.write_all(input));
        child.wait_with_output().unwrap()
    })
}

fn said(output: &Output) -> &str {
    str::from_utf8(&output.stderr).unwrap()
}

/// The program with faults.c between it and the system; these settings are told there.
fn with_faults(settings: &[(&str, &str)]) -> Command {
    static FAULTS: LazyLock<PathBuf> = LazyLock::new(|| {
        let library = Path::new(env!("CARGO_TARGET_TMPDIR")).join("faults.so");
        let source = concat!(env!("CARGO_MANIFEST_DIR"), "/tests/faults.c");
        let mut compiler = Command::new("cc");
        compiler.args(["-Wall", "-Wextra", "-Werror", "-fPIC", "-shared", "-o"]);
        assert!(
            compiler
                .args([&library, Path::new(source)])
                .status()
                .unwrap()
                .success()
        );
        library
    });
    let mut program = Command::new(PROGRAM);
    program.env("LD_PRELOAD", &*FAULTS);
    program.envs(settings.iter().copied());
    program
}

#[test]
fn a_directory_as_input() {
    let program = &mut Command::new(PROGRAM);
    let output = program.stdin(File::open("/").unwrap()).output().unwrap();
    assert_eq!(said(&output), "standard input: Is a directory\n");
    assert_eq!(output.stdout, []);
}

#[test]
fn a_full_device_as_output() {
    // With no command the end mark itself is not taken.
    for prints in [0, 1, 2 * INPUT_LEN] {
        let full = File::options().write(true).open("/dev/full").unwrap();
        let output = run(&mut Command::new(PROGRAM), full, &print().repeat(prints));
        assert_eq!(said(&output), "standard output: No space left on device\n");
    }
}

#[test]
fn a_closed_pipe_as_output() {
    let closed = || io::pipe().unwrap().1;
    let output = run(&mut Command::new(PROGRAM), closed(), &print());
    const SIGPIPE: i32 = 13;
    assert_eq!((output.status.signal(), said(&output)), (Some(SIGPIPE), ""));
    let mut ignoring = Command::new("sh");
    ignoring.args(["-c", "trap '' PIPE; exec \"$0\"", PROGRAM]);
    let output = run(&mut ignoring, closed(), &print());
    assert_eq!(said(&output), "standard output: Broken pipe\n");
}

#[test]
fn interrupted_calls_are_made_again() {
    let mut random = Random::new(126);
    let input = random::commands(&mut random, 2_000).concat();
    let output = run(
        &mut with_faults(&[("INTERRUPTS", "")]),
        Stdio::piped(),
        &input,
    );
    assert!(output.stdout == batch_program::run(&input));
    let counts = said(&output).strip_prefix("interrupted: reads ").unwrap();
    let (reads, writes) = counts.trim_end().split_once(", writes ").unwrap();
    assert!(reads.parse::<usize>().unwrap() > 2 * input.len() / INPUT_LEN);
    assert!(writes.parse::<usize>().unwrap() > 2 * output.stdout.len() / 100);
}

#[test]
fn a_read_that_fails_later() {
    let mut random = Random::new(127);
    let input = random::commands(&mut random, 300).concat();
    // A pipe hands so few bytes on in one read; without the last one a command is cut.
    assert!(input.len() < INPUT_LEN);
    for input in [&input[..], &input[..input.len() - 1]] {
        let output = run(
            &mut with_faults(&[("READ_FAILS", "2")]),
            Stdio::piped(),
            input,
        );
        let whole = batch_program::run(input);
        assert_eq!(output.stdout, whole[..whole.len() - 2]);
        let error = "standard input: Input/output error\ninterrupted: reads 0, writes 0\n";
        assert_eq!(said(&output), error);
    }
}

#[test]
fn a_write_that_fails_later() {
    let mut random = Random::new(128);
    let input = random::commands(&mut random, 2_000).concat();
    let whole = batch_program::run(&input);
    // Every third call takes 100 bytes.
    for (nth, taken) in [("1", 0), ("4", 100), ("7", 200)] {
        let settings = [("INTERRUPTS", ""), ("WRITE_FAILS", nth)];
        let output = run(&mut with_faults(&settings), Stdio::piped(), &input);
        assert_eq!(output.stdout, whole[..taken]);
        assert_eq!(
            said(&output).lines().next(),
            Some("standard output: Input/output error")
        );
        assert_eq!(said(&output).lines().count(), 2);
    }
}
