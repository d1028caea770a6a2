//! Tables in files: begun with, saved whole or not at all, shown, dumped and checked.

mod common;

use common::{HALF_WIDTH, PROGRAM, file_mode, lines, on, run, run_program, scratch, table};
use reference::random::{self, Random};
use std::path::{Path, PathBuf};
use std::process::Command;

const STOPS: &str = "add 1 2 3\nadd 2 7 1\nstand 0 0 10 0\n";

/// The files in its folder.
fn beside(file: &Path) -> Vec<String> {
    let folder = std::fs::read_dir(file.parent().unwrap()).unwrap();
    let name = |entry: std::io::Result<std::fs::DirEntry>| entry.unwrap().file_name();
    let mut names: Vec<String> = folder.map(|e| name(e).into_string().unwrap()).collect();
    names.sort();
    names
}

#[test]
fn a_table_outlives_its_process() {
    let file = table("outlives");
    let missing = on(&file, &[], STOPS);
    assert_eq!((missing.code, missing.text()), (4, ""));
    assert!(!file.exists());
    assert_eq!(on(&file, &["--create"], STOPS).code, 0);
    assert_eq!(std::fs::read(&file).unwrap().len(), 32_768);
    let again = on(&file, &[], "print\nadd 3 0 0\n");
    let listed = "line 1: list of 2 entries, (0, 0) to (10, 0)\nfrom 0/1 (0.000, 0.000) site 1\n";
    assert!(again.text().starts_with(listed), "{}", again.text());
    let third = on(&file, &["--create"], "leg 0 0 0 0\n");
    assert!(third.text().ends_with("site 3\nend 0: all commands used\n"));
    assert_eq!(beside(&file), ["kept.stops"]);
}

/// A long history in many processes answers as one run does.
#[test]
fn a_history_in_parts() {
    let file = table("parts");
    let mut random = Random::new(141);
    let commands = random::commands(&mut random, 1_200);
    let mut answers = String::new();
    for part in commands.chunks(100) {
        let ran = on(&file, &["--create", "--plain"], &lines(part));
        answers += ran
            .text()
            .strip_suffix("end 0: all commands used\n")
            .unwrap();
    }
    let whole = run(&["--plain"], lines(&commands));
    assert_eq!(answers + "end 0: all commands used\n", whole.text());
}

#[test]
fn saved_on_save_and_at_the_end() {
    let file = table("saved");
    let ran = on(
        &file,
        &["--create"],
        "add 1 0 0\nsave\nadd 2 0 0\nquit\nadd 3 0 0\n",
    );
    assert_eq!((ran.code, ran.err.as_str()), (0, ""));
    assert_eq!(
        ran.text(),
        "accepted\nline 2: saved\naccepted\nend 0: all commands used\n"
    );
    assert_eq!(file_mode("--dump", &file).text(), "add 1 0 0\nadd 2 0 0\n");
    let none = run(&[], "save\n");
    assert_eq!(
        (none.code, none.err.as_str()),
        (2, "stops-text: line 1: save needs --table FILE\n")
    );
}

#[test]
fn a_run_that_breaks_off_keeps_the_last_save() {
    let file = table("broken off");
    on(&file, &["--create"], STOPS);
    let before = std::fs::read(&file).unwrap();
    // A folder cannot be read as lines.
    let mut program = Command::new(PROGRAM);
    program
        .arg("--table")
        .arg(&file)
        .arg(file.parent().unwrap());
    assert_eq!(run_program(&mut program, b"").code, 4);
    assert!(std::fs::read(&file).unwrap() == before);
}

/// Runs the program in a shell that sets limits first.
fn limited(file: &Path, limits: &str) -> std::process::Output {
    let script = format!("{limits}; printf 'add 9 9 9\\n' | exec \"$0\" --table \"$1\"");
    let mut shell = Command::new("bash");
    shell.arg("-c").arg(script).arg(PROGRAM).arg(file);
    shell.output().unwrap()
}

#[test]
fn a_full_disk_leaves_the_old_file_whole() {
    let file = table("full");
    on(&file, &["--create"], STOPS);
    let before = std::fs::read(&file).unwrap();
    // No file may pass 16 KB, and a write past that fails.
    let full = limited(&file, "trap '' XFSZ; ulimit -f 16");
    assert_eq!(full.status.code(), Some(4));
    let message = String::from_utf8(full.stderr).unwrap();
    assert!(message.starts_with("stops-text: cannot save "), "{message}");
    assert!(std::fs::read(&file).unwrap() == before);
    assert_eq!(beside(&file), ["kept.stops"]);
}

#[test]
fn a_crash_while_saving_leaves_the_old_file_whole() {
    let file = table("crash");
    on(&file, &["--create"], STOPS);
    let before = std::fs::read(&file).unwrap();
    // The signal that ends the program comes in the middle of the writing.
    let crashed = limited(&file, "ulimit -c 0; ulimit -f 16");
    assert_ne!(crashed.status.code(), Some(0));
    assert!(std::fs::read(&file).unwrap() == before);
    assert_eq!(on(&file, &[], "add 9 9 9\n").code, 0);
}

/// A library that writes down which files are synced and renamed.
fn recorder() -> PathBuf {
    let (source, library) = (scratch("recorder.c"), scratch("recorder.so"));
    let text = r#"
#define _GNU_SOURCE
#include <dlfcn.h>
#include <stdio.h>
#include <stdlib.h>
static void note(const char *what) {
    FILE *log = fopen(getenv("RECORD"), "a");
    fprintf(log, "%s\n", what);
    fclose(log);
}
int fsync(int file) {
    note("fsync");
    return ((int (*)(int))dlsym(RTLD_NEXT, "fsync"))(file);
}
int rename(const char *from, const char *to) {
    note("rename");
    return ((int (*)(const char *, const char *))dlsym(RTLD_NEXT, "rename"))(from, to);
}
"#;
    std::fs::write(&source, text).unwrap();
    let mut compiler = Command::new("cc");
    compiler
        .args(["-shared", "-fPIC", "-o"])
        .arg(&library)
        .arg(&source)
        .arg("-ldl");
    assert!(compiler.status().unwrap().success());
    library
}

#[test]
fn written_beside_synced_and_renamed() {
    let (file, log) = (table("synced"), scratch("synced.log"));
    let _ = std::fs::remove_file(&log);
    let mut program = Command::new(PROGRAM);
    program.arg("--table").arg(&file).arg("--create");
    program.env("LD_PRELOAD", recorder()).env("RECORD", &log);
    assert_eq!(run_program(&mut program, b"add 1 2 3\n").code, 0);
    // The file, its name, and the folder that has the name.
    assert_eq!(
        std::fs::read_to_string(&log).unwrap(),
        "fsync\nrename\nfsync\n"
    );
}

#[test]
fn permissions_and_links_stay() {
    use std::os::unix::fs::{PermissionsExt, symlink};
    let file = table("links");
    on(&file, &["--create"], STOPS);
    std::fs::set_permissions(&file, std::fs::Permissions::from_mode(0o640)).unwrap();
    let link = file.with_file_name("link");
    symlink("kept.stops", &link).unwrap();
    assert_eq!(on(&link, &[], "add 3 0 0\n").code, 0);
    assert!(std::fs::symlink_metadata(&link).unwrap().is_symlink());
    // The gate takes no link in the checkout.
    std::fs::remove_file(&link).unwrap();
    assert_eq!(
        std::fs::metadata(&file).unwrap().permissions().mode() & 0o777,
        0o640
    );
    assert!(file_mode("--dump", &file).text().contains("add 3 0 0\n"));
}

#[test]
fn what_somebody_else_saved_is_left() {
    let file = table("others");
    on(&file, &["--create"], STOPS);
    let other = file.with_file_name("other");
    on(&other, &["--create"], "add 77 7 7\n");
    let mut child = Command::new(PROGRAM)
        .arg("--table")
        .arg(&file)
        .stdin(std::process::Stdio::piped())
        .stdout(std::process::Stdio::piped())
        .stderr(std::process::Stdio::piped())
        .spawn()
        .unwrap();
    use std::io::{Read, Write};
    let mut input = child.stdin.take().unwrap();
    input.write_all(b"add 3 0 0\n").unwrap();
    let mut answer = [0; 9];
    child
        .stdout
        .as_mut()
        .unwrap()
        .read_exact(&mut answer)
        .unwrap();
    std::fs::copy(&other, &file).unwrap();
    drop(input);
    let output = child.wait_with_output().unwrap();
    assert_eq!(output.status.code(), Some(4));
    let message = String::from_utf8(output.stderr).unwrap();
    assert!(message.contains("somebody else changed it"), "{message}");
    assert_eq!(file_mode("--dump", &file).text(), "add 77 7 7\n");
}

/// A listing needs no writing: a table that cannot be written can be asked.
#[test]
fn nothing_changed_nothing_written() {
    let file = table("unchanged");
    on(&file, &["--create"], STOPS);
    let written = std::fs::metadata(&file).unwrap().modified().unwrap();
    assert_eq!(on(&file, &[], "print\nsave\nadd 1 0 0\n").code, 1);
    assert_eq!(
        std::fs::metadata(&file).unwrap().modified().unwrap(),
        written
    );
}

#[test]
fn what_is_held_is_shown() {
    let file = table("shown");
    let empty = on(&file, &["--create"], "sites\nstanding\ntree\ntouring\n");
    let expected = "line 1: 0 sites
line 2: no standing leg
line 3: tree of 0 levels, 0 nodes
line 4: no tour under way
end 0: all commands used
";
    assert_eq!(empty.text(), expected);
    on(&file, &[], STOPS);
    let shown = on(&file, &[], "sites\nstanding\ntree\n");
    let expected = "line 1: 2 sites
site 1 at (2, 3)
site 2 at (7, 1)
line 2: standing leg (0, 0) to (10, 0), list of 2 entries
from 0/1 (0.000, 0.000) site 1
from 37/100 (3.700, 0.000) site 2
line 3: tree of 1 level, 1 node
level 1, node 263: 2 entries, (2, 1) to (7, 3)
end 0: all commands used
";
    assert_eq!((shown.code, shown.text()), (0, expected));
    let plain = on(&file, &["--plain"], "sites\n");
    assert!(plain.text().starts_with("2 sites\nsite 1 at (2, 3)\n"));
}

#[test]
fn every_node_of_a_full_tree_is_shown() {
    let mut input: String = (1..=512)
        .map(|n| format!("add {n} {} {}\n", n % 23, n / 23))
        .collect();
    input += "tree\nsites\n";
    let shown = run(&[], input);
    let nodes = shown
        .text()
        .lines()
        .filter(|line| line.starts_with("level "));
    let levels: Vec<usize> = nodes.map(|line| line[6..7].parse().unwrap()).collect();
    assert!(levels.is_sorted() && levels.len() >= 64, "{levels:?}");
    let held = shown
        .text()
        .lines()
        .filter(|line| line.starts_with("site "));
    assert_eq!(held.count(), 512);
    let counted = format!("levels, {} nodes", levels.len());
    assert!(shown.text().contains(&counted));
}

#[test]
fn a_dump_makes_the_same_lists_anew() {
    let mut random = Random::new(142);
    for nth in 0..6 {
        let (file, fresh) = (
            table(&format!("dump {nth}")),
            table(&format!("fresh {nth}")),
        );
        on(
            &file,
            &["--create"],
            &lines(&random::commands(&mut random, 400)),
        );
        let dump = file_mode("--dump", &file);
        // Told is what is not carried over.
        let remembers = std::fs::read(&file).unwrap()[22..24] != [0, 0];
        assert_eq!((dump.code, dump.err.is_empty()), (0, !remembers));
        let begun = on(&fresh, &["--create"], dump.text());
        assert_eq!(begun.code, 0);
        let ask = format!(
            "print\nstanding\nsites\nleg -6 -6 6 6\nleg 3 -5 -2 6\nleg {HALF_WIDTH} 0 -{HALF_WIDTH} 1\n"
        );
        assert_eq!(on(&file, &[], &ask).text(), on(&fresh, &[], &ask).text());
        assert_eq!(file_mode("--dump", &fresh).text(), dump.text());
    }
}

#[test]
fn a_file_that_is_no_table() {
    let file = table("none");
    for bytes in [vec![], vec![0; 100], vec![0; 32_768], vec![0; 40_000]] {
        std::fs::write(&file, &bytes).unwrap();
        let reason = if bytes.len() == 32_768 { 65 } else { 64 };
        for ran in [on(&file, &["--create"], STOPS), file_mode("--dump", &file)] {
            assert_eq!((ran.code, ran.text()), (5, ""));
            let said = format!("is no sound table: reason {reason}, ");
            assert!(
                ran.err.contains(&said) && ran.err.contains("--check"),
                "{}",
                ran.err
            );
        }
        assert!(std::fs::read(&file).unwrap() == bytes);
    }
}

#[test]
fn a_sound_table_is_checked() {
    let file = table("sound");
    on(&file, &["--create"], STOPS);
    let ran = file_mode("--check", &file);
    let expected = "sound: no rule is broken\n2 sites, tree of 1 level, 1 node\nstanding leg (0, 0) to (10, 0), list of 2 entries\n";
    assert_eq!((ran.code, ran.text(), ran.err.as_str()), (0, expected, ""));
}

#[test]
fn a_broken_table_is_told_with_its_sites() {
    let file = table("broken");
    on(&file, &["--create"], STOPS);
    let mut bytes = std::fs::read(&file).unwrap();
    // The easting of site 2, off the grid.
    bytes[74..76].copy_from_slice(&24_001u16.to_le_bytes());
    std::fs::write(&file, &bytes).unwrap();
    let ran = file_mode("--check", &file);
    let expected = "broken: the service refuses it with reason 65
site record 1: the easting is off the grid, 0 to 24,000 from its edge, byte 74: 24,001 stands there
node 263, entry 1: not the easting of the site's record, byte 32,686: 12,007 stands there
sites that can still be read: 1
add 1 2 3
";
    assert_eq!((ran.code, ran.text()), (5, expected));
    assert_eq!(ran.err, "");
    let rubbish = file.with_file_name("rubbish");
    std::fs::write(&rubbish, vec![0xA5; 32_768]).unwrap();
    let ran = file_mode("--check", &rubbish);
    assert_eq!(ran.code, 5);
    assert!(
        ran.text().lines().count() < 30 && ran.text().contains("\nand "),
        "{}",
        ran.text()
    );
    std::fs::write(&rubbish, vec![1; 90]).unwrap();
    let short = file_mode("--check", &rubbish);
    let first =
        "broken: the service refuses it with reason 64\ntable: 90 bytes long, a table has 32,768\n";
    assert!(
        short.text().starts_with(first) && short.code == 5,
        "{}",
        short.text()
    );
}
