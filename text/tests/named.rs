//! Answers name their line, or their command where those come as bytes; scripts can have them plain.

mod common;

use common::{OFF_GRID, batch_program, run, run_program, scratch, span};
use std::process::Command;

const LINES: &str = "add 1 2 3\n\n# a stop\nadd 2 7 1\nstand 0 0 10 0\nadd 2 0 0\nleg 0 0 10 0\nleg 5 5 5 5\nprint\n";

#[test]
fn refusals_and_lists_name_their_line() {
    let ran = run(&[], LINES);
    let expected = "accepted
accepted
accepted
line 6: refused 3: number already held
line 7: list of 2 entries, (0, 0) to (10, 0)
from 0/1 (0.000, 0.000) site 1
from 37/100 (3.700, 0.000) site 2
line 8: list of 1 entry, (5, 5) to (5, 5)
from 0/1 (5.000, 5.000) site 1
line 9: list of 2 entries, (0, 0) to (10, 0)
from 0/1 (0.000, 0.000) site 1
from 37/100 (3.700, 0.000) site 2
end 0: all commands used
";
    assert_eq!((ran.code, ran.text()), (1, expected));
}

#[test]
fn plain_answers_are_those_without_names() {
    let plain = run(&["--plain"], LINES);
    let named = run(&[], LINES);
    let unnamed = |line: &str| {
        let answer = line.strip_prefix("line ").map_or(line, |rest| &rest[3..]);
        let answer = match answer.starts_with("list") {
            true => answer.split(',').next().unwrap(),
            false => answer,
        };
        format!("{answer}\n")
    };
    let expected: String = named.text().lines().map(unnamed).collect();
    assert_eq!((plain.code, plain.text()), (1, expected.as_str()));
    assert!(expected.contains("\nrefused 3: number already held\nlist of 2 entries\n"));
}

#[test]
fn decoded_answers_name_their_command() {
    let commands = run(&["--bytes"], LINES).out;
    let printed = batch_program(&commands);
    let alone = run(&["--decode"], &printed);
    let refused = "\ncommand 4: refused 3: number already held\ncommand 5: list of 2 entries\n";
    assert!(alone.text().contains(refused), "{}", alone.text());
    let file = scratch("named.bin");
    std::fs::write(&file, &commands).unwrap();
    let mut program = Command::new(common::PROGRAM);
    program.arg("--decode").arg("--commands").arg(&file);
    let known = run_program(&mut program, &printed);
    let listed = "\ncommand 5: list of 2 entries, (0, 0) to (10, 0)\nfrom 0/1 (0.000, 0.000)";
    assert!(known.text().contains(listed), "{}", known.text());
}

#[test]
fn a_byte_order_mark_is_skipped() {
    let marked = [b"\xef\xbb\xbf".as_slice(), LINES.as_bytes()].concat();
    for mode in [&[][..], &["--plain"], &["--bytes"]] {
        let ran = run(mode, &marked);
        assert_eq!((ran.out, ran.err.as_str()), (run(mode, LINES).out, ""));
    }
    // Only at the very start.
    let later = run(&[], "print\n\u{feff}print\n");
    assert_eq!(later.code, 2);
    assert!(later.err.starts_with("stops-text: line 2: unknown word"));
    assert_eq!(run(&[], "\u{feff}").text(), "end 0: all commands used\n");
}

#[test]
fn numbers_that_fit_no_word_are_told_with_their_range() {
    let input = format!("add 65536 0 0\nadd 1 40000 0\nadd 1 {OFF_GRID} 0\nremove 0\n");
    let (ran, span) = (run(&[], input), span());
    let messages = format!(
        "stops-text: line 1: site number \"65536\" is not within 1 to 65,535
stops-text: line 2: coordinate \"40000\" is off the grid, {span}
"
    );
    assert_eq!((ran.code, ran.err.as_str()), (2, messages.as_str()));
    let refused = format!(
        "line 3: refused 2: a coordinate outside {span}
line 4: refused 1: site number 0, it is 1 to 65,535
"
    );
    assert!(ran.text().starts_with(&refused));
}

#[test]
fn lines_that_stops_text_does_itself_have_no_bytes() {
    let ran = run(&["--bytes"], "print\nsites\nsave\ndraw x\nprint\n");
    assert_eq!((ran.code, ran.out.as_slice()), (2, b"PP".as_slice()));
    let message = "stops-text: line 2: sites has no command bytes: stops-text does it itself\n";
    assert!(ran.err.starts_with(message), "{}", ran.err);
    assert_eq!(ran.err.lines().count(), 3);
}

#[test]
fn the_version_is_that_of_the_header_and_the_newest_changes() {
    let header = std::fs::read_to_string(common::at_root("include/stops.h")).unwrap();
    let version = header.split("#define STOPS_VERSION \"").nth(1).unwrap();
    let version = version.split('"').next().unwrap();
    let changes = std::fs::read_to_string(common::at_root("docs/CHANGELOG.md")).unwrap();
    let newest = changes.lines().find_map(|line| line.strip_prefix("## "));
    assert_eq!(newest.unwrap().split(',').next(), Some(version));
    for options in [
        &["--version"][..],
        &["--bytes", "--version"],
        &["--version", "x"],
    ] {
        let ran = run(options, "add 1 2 3\n");
        assert_eq!(
            (ran.code, ran.text()),
            (0, format!("stops-text {version}\n").as_str())
        );
    }
}
