//! The batch program's output: every end, and output that is none.

mod common;

use common::{at_root, batch_program, run, run_program, scratch};
use reference::random::{self, Random};
use reference::record::Record;
use std::process::Command;

/// The reasons of include/stops.h.
fn reasons() -> Vec<u8> {
    let header = std::fs::read_to_string(at_root("include/stops.h")).unwrap();
    let (_, reasons) = header.split_once("enum stops_reason {").unwrap();
    let (reasons, _) = reasons.split_once('}').unwrap();
    let number = |part: &str| {
        let digits: String = part.chars().take_while(char::is_ascii_digit).collect();
        digits.parse().unwrap()
    };
    reasons.split(" = ").skip(1).map(number).collect()
}

#[test]
fn every_reason() {
    let ends = [
        (0, 0, "all commands used"),
        (64, 5, "table or work buffer of wrong length"),
        (
            65,
            5,
            "a rule on layout, sites, tour or tree is broken in the table",
        ),
        (66, 5, "unknown command byte"),
        (67, 5, "known command, operands cut short"),
        (
            68,
            5,
            "the command's record exceeds what is left of the report buffer",
        ),
        (
            69,
            5,
            "the standing leg or list in the table is wrong, its sites can be read",
        ),
    ];
    assert_eq!(reasons(), ends.map(|(reason, ..)| reason));
    for (reason, code, words) in ends {
        let ran = run(&["--decode"], [0x2B, 0x2E, reason]);
        let message = match reason {
            0 => String::new(),
            _ => format!("stops-text: the service ended with reason {reason}: {words}\n"),
        };
        assert_eq!(ran.text(), format!("accepted\nend {reason}: {words}\n"));
        assert_eq!((ran.code, ran.err), (code, message));
    }
}

#[test]
fn what_the_batch_program_itself_ends_with() {
    let unknown = run(&["--decode", "--plain"], batch_program(b"P?"));
    assert_eq!(
        unknown.text(),
        "refused 7: no standing leg\nend 66: unknown command byte\n"
    );
    let cut = run(&["--decode", "--plain"], batch_program(b"A\x01\x00"));
    assert_eq!(cut.text(), "end 67: known command, operands cut short\n");
    let none = run(&["--decode", "--plain"], batch_program(b""));
    assert_eq!((none.code, none.text()), (0, "end 0: all commands used\n"));
}

#[test]
fn cut_at_every_byte() {
    let mut random = Random::new(91);
    let whole = batch_program(&random::commands(&mut random, 60).concat());
    let full = run(&["--decode"], &whole);
    assert_eq!(full.code, 1);
    for length in 0..whole.len() {
        let ran = run(&["--decode"], &whole[..length]);
        // What is told is what the whole records say, and the fault is where the next begins.
        let mut told = 0;
        while let Some((_, next)) = Record::read(&whole[told..length]) {
            told += next;
        }
        let fault = "the output is cut short: no end mark (2E and a reason)";
        assert_eq!(ran.err, format!("stops-text: byte {told}: {fault}\n"));
        assert_eq!(ran.code, 2);
        assert!(full.text().starts_with(ran.text()));
        let ended = run(&["--decode"], [&whole[..told], b"\x2E\0"].concat());
        assert_eq!(
            ended.text(),
            format!("{}end 0: all commands used\n", ran.text())
        );
    }
}

#[test]
fn bytes_that_are_no_output() {
    let list = |count: u8, n: u8, d: u8| {
        let mut bytes = vec![0x3D, count, 0];
        bytes.extend([1, 0, n, 0, 0, 0, d, 0, 0, 0]);
        bytes
    };
    let cases = [
        (vec![0x2B, 0x00], 1, "00 begins no record"),
        (vec![0x2B, 0x21, 0], 1, "no refusal has the number 0"),
        (vec![0x21, 9], 0, "no refusal has the number 9"),
        (vec![0x21, 10], 0, "no refusal has the number 10"),
        (vec![0x21, 12], 0, "no refusal has the number 12"),
        (vec![0x3D, 1, 2], 0, "no list has 513 entries"),
        (
            list(1, 1, 1),
            0,
            "1/1 is no start: it is not from 0 to below 1",
        ),
        (
            list(1, 0, 0),
            0,
            "0/0 is no start: it is not from 0 to below 1",
        ),
        (vec![0x2E, 1], 0, "no reason has the number 1"),
        (vec![0x2E, 70], 0, "no reason has the number 70"),
        (vec![0x2E, 0, 0x2B], 2, "something follows the end mark"),
    ];
    for (bytes, at, fault) in cases {
        let ran = run(&["--decode"], bytes);
        assert_eq!(
            (ran.code, ran.err),
            (2, format!("stops-text: byte {at}: {fault}\n"))
        );
    }
}

#[test]
fn any_bytes() {
    let mut random = Random::new(92);
    let whole = batch_program(&random::commands(&mut random, 200).concat());
    for _ in 0..150 {
        let mut bytes = whole.clone();
        for _ in 0..random.between(1, 4) {
            let at = random.index(bytes.len());
            bytes[at] = random.between(0, 255) as u8;
        }
        let ran = run(&["--decode"], &bytes);
        assert!([0, 1, 2, 5].contains(&ran.code), "{}", ran.err);
        assert_eq!(ran.err.is_empty(), ran.code < 2);
    }
}

#[test]
fn commands_of_another_run() {
    let commands = scratch("other.bin");
    std::fs::write(&commands, b"PP").unwrap();
    let mut program = Command::new(common::PROGRAM);
    program.arg("--decode").arg("--commands").arg(&commands);
    let ran = run_program(&mut program, b"\x21\x07\x2B\x2E\0");
    assert_eq!(ran.text(), "command 1: refused 7: no standing leg\n");
    let fault = "stops-text: byte 2: the record does not answer its command\n";
    assert_eq!((ran.code, ran.err.as_str()), (2, fault));
}

/// What is said of this output, fed with these commands.
fn decoded(name: &str, commands: &[u8], output: &[u8]) -> (i32, String) {
    let file = scratch(name);
    std::fs::write(&file, commands).unwrap();
    let mut program = Command::new(common::PROGRAM);
    program.arg("--decode").arg("--commands").arg(&file);
    let ran = run_program(&mut program, output);
    (ran.code, ran.err)
}

#[test]
fn records_too_many_or_too_few() {
    let many = "stops-text: byte 4: a record too many: 2 commands were given\n";
    let output = b"\x21\x07\x21\x07\x21\x07\x2E\0";
    assert_eq!(decoded("many.bin", b"PP", output), (2, many.into()));
    let few = "stops-text: byte 4: the end does not fit: after 2 records the commands go on at their byte 2\n";
    let output = b"\x21\x07\x21\x07\x2E\0";
    assert_eq!(decoded("few.bin", b"PPP", output), (2, few.into()));
    assert_eq!(decoded("right.bin", b"PP", output), (1, String::new()));
    let none = "stops-text: byte 0: a record too many: 0 commands were given\n";
    assert_eq!(decoded("none.bin", b"", output), (2, none.into()));
}

#[test]
fn ends_that_do_not_fit_the_commands() {
    let refused = |reason| [0x21, 7, 0x2E, reason];
    let fits = |name, commands: &[u8], reason| decoded(name, commands, &refused(reason)).0 == 5;
    assert!(fits("unknown.bin", b"P?P", 66));
    assert!(!fits("unknown.bin", b"P", 66) && !fits("unknown.bin", b"PP", 66));
    assert!(fits("cut.bin", b"PA\x01", 67));
    assert!(!fits("cut.bin", b"P", 67) && !fits("cut.bin", b"P?", 67));
    assert!(!fits("cut.bin", b"PP", 67));
    let cut = decoded("cut.bin", b"P?", &refused(67));
    let message = "stops-text: byte 2: the end does not fit: after 1 records the commands go on at their byte 1\n";
    assert_eq!(cut, (2, message.into()));
    // With these no command is done.
    for reason in [64, 65, 69] {
        assert!(!fits("refused.bin", b"P", reason));
        assert_eq!(decoded("refused.bin", b"P", &[0x2E, reason]).0, 5);
    }
}
