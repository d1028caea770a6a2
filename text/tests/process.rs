//! The program among others: help, exit codes, files, pipes and terminals.

mod common;
#[path = "common/terminal.rs"]
mod terminal;

use common::{PROGRAM, run, scratch};
use std::fs::OpenOptions;
use std::io::{Read, Write};
use std::process::{Command, Stdio};
use std::thread;
use std::time::Duration;
use terminal::{shown, terminal};

#[test]
fn help_is_printed_and_reads_nothing() {
    for option in ["--help", "-h"] {
        let ran = run(&["--svg", "x", option], "add 1 2 3\n");
        assert_eq!((ran.code, ran.err.as_str()), (0, ""));
        for heading in [
            "NAME",
            "SYNOPSIS",
            "DESCRIPTION",
            "LINES",
            "ANSWERS",
            "OPTIONS",
            "EXIT STATUS",
            "EXAMPLES",
        ] {
            assert!(ran.text().lines().any(|line| line == heading), "{heading}");
        }
        assert!(ran.text().lines().all(|line| line.chars().count() < 80));
        let options = [
            "--svg",
            "--boxes",
            "--whole-grid",
            "--bytes",
            "--decode",
            "--commands",
            "--table",
            "--create",
            "--plain",
            "--force",
            "--dump",
            "--check",
            "--version",
        ];
        assert!(options.iter().all(|option| ran.text().contains(option)));
    }
}

/// The answers that the help shows are real ones.
#[test]
fn the_answers_in_the_help_are_given() {
    let help = run(&["--help"], "");
    let leg = "add 1 2 3\nadd 1 2 3\nadd 2 7 1\nleg 0 0 10 0\n";
    let tour = "add 1 2 3\nadd 2 7 1\ntour 0 0\ncorner 10 0\ncorner 0 0\ncorner 2 0\n";
    let readings = "add 7 1234.5m -99.9m\nmove 7 1200050m 50m\nmove 7 0x7FC00001m -0m\n";
    for lines in [leg, tour, readings] {
        let ran = run(&[], lines);
        for answer in ran.text().lines() {
            assert!(
                help.text().lines().any(|line| line.trim() == answer),
                "{answer}"
            );
        }
    }
}

#[test]
fn every_exit_code() {
    let missing = scratch("no such file");
    let missing = missing.to_str().unwrap();
    let nowhere = format!("{missing}/picture.svg");
    let codes: [(&[&str], &str, i32); 14] = [
        (&[], "add 1 0 0\n", 0),
        (&[], "remove 1\n", 1),
        (&[], "remov 1\n", 2),
        (&[], "remove 1\nremov 1\n", 2),
        (&["--bytes"], "remove 1\n", 0),
        (&["--bytes"], "remov 1\n", 2),
        (&["--decode"], "+!\x07.\0", 1),
        (&["--decode"], "?", 2),
        (&["--decode"], ".B", 5),
        (&["--unknown"], "", 3),
        (&["--bytes", "--decode"], "", 3),
        (&[missing], "", 4),
        (&["--svg", &nowhere], "add 1 0 0\n", 4),
        (&["--decode", "--commands", missing], ".\0", 4),
    ];
    for (arguments, input, code) in codes {
        let ran = run(arguments, input);
        assert_eq!(ran.code, code, "{arguments:?} {input}: {}", ran.err);
        assert_eq!(ran.err.is_empty(), code < 2);
        assert!(ran.err.is_empty() || ran.err.starts_with("stops-text: "));
    }
}

#[test]
fn a_folder_is_no_input() {
    let ran = run(&[env!("CARGO_TARGET_TMPDIR")], "");
    assert_eq!((ran.code, ran.text()), (4, ""));
    assert!(ran.err.starts_with("stops-text: cannot read "));
}

#[test]
fn a_full_disk_is_an_error() {
    for (option, input) in [
        ("-", "print\n"),
        ("--bytes", "print\n"),
        ("--decode", ".\0"),
        ("--help", ""),
    ] {
        let full = OpenOptions::new().write(true).open("/dev/full").unwrap();
        let mut child = Command::new(PROGRAM)
            .arg(option)
            .stdin(Stdio::piped())
            .stdout(full)
            .stderr(Stdio::piped())
            .spawn()
            .unwrap();
        // --help reads nothing.
        let _ = child.stdin.take().unwrap().write_all(input.as_bytes());
        let output = child.wait_with_output().unwrap();
        assert_eq!(output.status.code(), Some(4), "{option}");
        assert!(
            output
                .stderr
                .starts_with(b"stops-text: cannot write the output: ")
        );
    }
}

#[test]
fn a_reader_that_goes_away_ends_it_quietly() {
    let lines = scratch("quiet.txt");
    std::fs::write(
        &lines,
        "add 1 0 0\n".to_string() + &"leg 0 0 1 1\n".repeat(200_000),
    )
    .unwrap();
    let records = scratch("quiet.out");
    std::fs::write(&records, "+".repeat(3 << 20) + ".\0").unwrap();
    for (options, file) in [
        (&[][..], &lines),
        (&["--bytes"], &lines),
        (&["--decode"], &records),
    ] {
        let mut child = Command::new(PROGRAM)
            .args(options)
            .arg(file)
            .stdout(Stdio::piped())
            .stderr(Stdio::piped())
            .spawn()
            .unwrap();
        let mut first = [0; 9];
        child.stdout.take().unwrap().read_exact(&mut first).unwrap();
        let output = child.wait_with_output().unwrap();
        assert_eq!(
            (output.status.code(), output.stderr),
            (Some(0), vec![]),
            "{options:?}"
        );
    }
}

#[test]
fn closed_standard_error_is_no_matter() {
    let (reader, writer) = std::io::pipe().unwrap();
    drop(reader);
    let mut child = Command::new(PROGRAM)
        .stdin(Stdio::piped())
        .stdout(Stdio::piped())
        .stderr(writer)
        .spawn()
        .unwrap();
    child
        .stdin
        .take()
        .unwrap()
        .write_all(b"bad\nprint\n")
        .unwrap();
    let output = child.wait_with_output().unwrap();
    assert_eq!(output.status.code(), Some(2));
    assert_eq!(
        output.stdout,
        b"line 2: refused 7: no standing leg\nend 0: all commands used\n"
    );
}

/// Feeds two lines, the second after the patience for a progress line has run out.
fn feed_slowly(mut input: impl Write) {
    input.write_all(b"print\n").unwrap();
    thread::sleep(Duration::from_millis(800));
    input.write_all(b"print\nwrong\n").unwrap();
    thread::sleep(Duration::from_millis(300));
    input.write_all(b"print\n").unwrap();
}

const KNOWN: &str = "(known: add, remove, move, leg, stand, print, tour, corner; \
                     sites, standing, touring, tree, save, draw, help, quit)";
const PROGRESS: &str = "read 0.0 MB";
const CLEAR: &str = "\r\u{1b}[K";

#[test]
fn a_progress_line_on_a_terminal() {
    let (screen, line) = terminal();
    let mut child = Command::new(PROGRAM)
        .stdin(Stdio::piped())
        .stdout(Stdio::piped())
        .stderr(line)
        .spawn()
        .unwrap();
    feed_slowly(child.stdin.take().unwrap());
    let output = child.wait_with_output().unwrap();
    assert_eq!(output.status.code(), Some(2));
    assert!(!String::from_utf8(output.stdout).unwrap().contains(PROGRESS));
    let shown = shown(screen);
    assert!(shown.contains(&format!("{CLEAR}{PROGRESS}")), "{shown:?}");
    assert!(shown.contains("stops-text: line 3: unknown word"));
    // In the end the line is taken away.
    assert!(shown.ends_with(CLEAR), "{shown:?}");
}

#[test]
fn answers_on_the_same_terminal_stand_alone() {
    let (screen, line) = terminal();
    let mut child = Command::new(PROGRAM)
        .stdin(Stdio::piped())
        .stdout(line.try_clone().unwrap())
        .stderr(line)
        .spawn()
        .unwrap();
    feed_slowly(child.stdin.take().unwrap());
    child.wait().unwrap();
    let shown = shown(screen);
    assert!(shown.contains(PROGRESS));
    // Whatever follows a progress line first clears it.
    for after in shown.split(PROGRESS).skip(1) {
        assert!(after.starts_with(CLEAR), "{shown:?}");
    }
    let visible: String = shown.replace(PROGRESS, "").replace(CLEAR, "");
    let refused = |line| format!("line {line}: refused 7: no standing leg\r\n");
    let bad = format!("stops-text: line 3: unknown word \"wrong\" {KNOWN}\r\n");
    let end = "end 0: all commands used\r\n".to_string();
    let (first, second, fourth) = (refused(1), refused(2), refused(4));
    assert_eq!(visible, [first, second, bad, fourth, end].concat());
}

#[test]
fn no_progress_line_into_a_pipe() {
    let mut child = Command::new(PROGRAM)
        .stdin(Stdio::piped())
        .stdout(Stdio::piped())
        .stderr(Stdio::piped())
        .spawn()
        .unwrap();
    feed_slowly(child.stdin.take().unwrap());
    let output = child.wait_with_output().unwrap();
    let message = format!("stops-text: line 3: unknown word \"wrong\" {KNOWN}\n");
    assert_eq!(String::from_utf8(output.stderr).unwrap(), message);
}

/// Who types sees the answers at once, and no progress line.
#[test]
fn typed_lines_are_answered_one_by_one() {
    let (screen, line) = terminal();
    let mut child = Command::new(PROGRAM)
        .stdin(line.try_clone().unwrap())
        .stdout(Stdio::piped())
        .stderr(line)
        .spawn()
        .unwrap();
    let mut answers = child.stdout.take().unwrap();
    for line in 1..=2 {
        (&screen).write_all(b"print\n").unwrap();
        let refused = format!("line {line}: refused 7: no standing leg\n");
        let mut answer = vec![0; refused.len()];
        answers.read_exact(&mut answer).unwrap();
        assert_eq!(answer, refused.as_bytes());
        thread::sleep(Duration::from_millis(600));
    }
    // The end of what is typed.
    (&screen).write_all(&[4]).unwrap();
    assert_eq!(child.wait().unwrap().code(), Some(1));
    assert!(!shown(screen).contains("read "));
}
