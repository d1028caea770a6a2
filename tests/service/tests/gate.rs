//! The gate shows how far it is while it runs, also into a file.

use std::fs::File;
use std::io::{BufRead, BufReader, Write};
use std::os::unix::fs::PermissionsExt;
use std::path::{Path, PathBuf};
use std::process::{Command, Stdio};

fn at_root(path: &str) -> PathBuf {
    Path::new(env!("CARGO_MANIFEST_DIR"))
        .join("../..")
        .join(path)
}

/// A small repository: two crates, three edits. In a checkout rt ci takes no crates.txt but its own, so a test removes
/// it in the end.
fn repository(name: &str) -> PathBuf {
    let folder = Path::new(env!("CARGO_TARGET_TMPDIR")).join(name);
    let _ = std::fs::remove_dir_all(&folder);
    for crates in ["a", "b"] {
        std::fs::create_dir_all(folder.join("crates").join(crates).join("must-fail")).unwrap();
    }
    for edit in ["a/must-fail/x", "a/must-fail/y", "b/must-fail/z"] {
        File::create(folder.join(format!("crates/{edit}.edit"))).unwrap();
    }
    std::fs::write(folder.join("crates.txt"), "# crates\n\na:\nb: a\n").unwrap();
    folder
}

#[test]
fn crates_and_edits_are_counted_line_by_line() {
    let script = std::fs::canonicalize(at_root(".ci/progress")).unwrap();
    let folder = repository("progress");
    let mut gate = Command::new(script)
        .current_dir(&folder)
        .stdin(Stdio::piped())
        .stdout(Stdio::piped())
        .spawn()
        .unwrap();
    let mut input = gate.stdin.take().unwrap();
    let mut output = BufReader::new(gate.stdout.take().unwrap());
    let lines = [
        ("fn a::f: proved", ""),
        ("rt: a proved", ", crate 1 of 2"),
        ("library words: modules loaded=5", ""),
        (
            "rt: b is kept: an earlier run on this machine proved the same",
            ", crate 2 of 2",
        ),
        ("rt: b: its tests are proved", ""),
        ("rt: a: trying its must-fail edits (2)", ""),
        (
            "rt: must-fail a/x.edit: refused, as it must be",
            ", edit 1 of 3",
        ),
        (
            "rt: must-fail a/y.edit: NOT REFUSED: the crate is still proved",
            ", edit 2 of 3",
        ),
        ("  two  blanks \\ and a backslash", ""),
        (
            "rt: must-fail b/z.edit: refused, as it must be",
            ", edit 3 of 3",
        ),
    ];
    for (line, counted) in lines {
        // Each line comes out before the next goes in.
        writeln!(input, "{line}").unwrap();
        let mut shown = String::new();
        output.read_line(&mut shown).unwrap();
        assert_eq!(shown, format!("{line}{counted}\n"));
    }
    drop(input);
    assert!(gate.wait().unwrap().success());
    std::fs::remove_dir_all(folder).unwrap();
}

/// No part of the gate's pipe holds lines back.
#[test]
fn the_gate_pipes_line_by_line() {
    let gate = std::fs::read_to_string(at_root(".ci/run")).unwrap();
    let piped = gate
        .lines()
        .find(|line| line.starts_with("rt ci "))
        .unwrap();
    assert!(piped.contains("| grep --line-buffered "), "{piped}");
    assert!(piped.ends_with("| .ci/progress"), "{piped}");
}

fn write_script(file: &Path, text: &str) {
    std::fs::create_dir_all(file.parent().unwrap()).unwrap();
    std::fs::write(file, format!("#!/bin/sh\n{text}\n")).unwrap();
    std::fs::set_permissions(file, std::fs::Permissions::from_mode(0o755)).unwrap();
}

/// What the gate prints last, and whether it passes, where rt says this and ends with this status, and where all tests
/// pass: two in each folder of tests, and the demonstration.
fn gate(name: &str, said: &str, status: u8) -> (String, bool) {
    let folder = repository(name);
    for part in [".ci/run", ".ci/progress"] {
        std::fs::create_dir_all(folder.join(".ci")).unwrap();
        std::fs::copy(at_root(part), folder.join(part)).unwrap();
    }
    for part in ["tests", "text", "examples"] {
        std::fs::create_dir_all(folder.join(part)).unwrap();
    }
    std::fs::write(folder.join("examples/demo.expected"), "").unwrap();
    std::fs::write(folder.join("said"), said).unwrap();
    write_script(&folder.join(".ci/build"), "exit 0");
    write_script(&folder.join("bin/rt"), &format!("cat said; exit {status}"));
    let tests = "echo 'test result: ok. 2 passed; 0 failed; 0 ignored'";
    write_script(&folder.join("bin/cargo"), tests);
    write_script(&folder.join("bin/make"), "exit 0");
    let others = std::env::var("PATH").unwrap();
    let path = format!("{}:{others}", folder.join("bin").display());
    let mut gate = Command::new("bash");
    let output = gate.arg(folder.join(".ci/run")).env("PATH", path).output();
    let output = output.unwrap();
    let printed = String::from_utf8(output.stdout).unwrap();
    let told = printed.lines().filter(|line| line.ends_with(" failed"));
    assert_eq!(told.count(), 1, "{printed}");
    let last = printed.lines().last().unwrap().to_string();
    std::fs::remove_dir_all(folder).unwrap();
    (last, output.status.success())
}

#[test]
fn the_last_line_counts_proofs_edits_and_tests() {
    let well = "rt: a proved\nrt: ok; handles allowed: none; must-fail edits: 3 refused; every proof\n5 passed, 0 failed\n";
    assert_eq!(gate("well", well, 0), ("10 passed, 0 failed".into(), true));
    let failed = "rt: a proved\nrt: FAILED: b\n1 passed, 1 failed\n";
    assert_eq!(
        gate("failed", failed, 1),
        ("6 passed, 1 failed".into(), false)
    );
    let stopped =
        "rt: a is the name of a library of the toolchain: rename the crate\n0 passed, 1 failed\n";
    assert_eq!(
        gate("stopped", stopped, 2),
        ("5 passed, 1 failed".into(), false)
    );
    assert_eq!(gate("silent", "", 1), ("5 passed, 1 failed".into(), false));
}

/// rt ci ends well with such edits.
#[test]
fn a_bad_edit_fails_the_gate() {
    for (name, refused) in [
        ("bad", "2 refused"),
        ("limit", "2 refused, 1 of them only by a limit"),
    ] {
        let said = format!(
            "rt: ok; handles allowed: none; must-fail edits: {refused}, 1 bad; done in this run: 1 of the 2 proofs\n4 passed, 0 failed\n"
        );
        let ended = gate(name, &said, 0);
        assert_eq!(ended, ("9 passed, 1 failed".into(), false));
    }
}
