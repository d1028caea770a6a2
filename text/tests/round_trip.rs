//! Lines to bytes, through the batch program, and back to words: the same as the direct run.

mod common;

use common::{HALF_WIDTH, alone, at_root, batch_program, lines, run, scratch};
use reference::grid::spread;
use reference::random::{self, Random};
use std::path::Path;

fn path(file: &Path) -> &str {
    file.to_str().unwrap()
}

fn assert_same(name: &str, input: &str) {
    let direct = run(&["--plain"], input);
    let bytes = run(&["--bytes"], input);
    assert_eq!((bytes.code, bytes.err.as_str()), (0, ""));
    let printed = batch_program(&bytes.out);
    let commands = scratch(name);
    std::fs::write(&commands, &bytes.out).unwrap();
    let decoded = run(
        &["--decode", "--plain", "--commands", path(&commands)],
        &printed,
    );
    assert!(decoded.text() == direct.text());
    assert_eq!((decoded.code, decoded.err.as_str()), (direct.code, ""));
    let unknown = run(&["--decode", "--plain"], &printed);
    assert!(unknown.text() == alone(direct.text()));
    assert_eq!(unknown.code, direct.code);
}

#[test]
fn bytes_are_the_commands() {
    let mut random = Random::new(81);
    let commands = random::commands(&mut random, 3_000);
    let ran = run(&["--bytes"], lines(&commands));
    assert_eq!(ran.out, commands.concat());
    assert_eq!((ran.code, ran.err.as_str()), (0, ""));
}

#[test]
fn random_lines() {
    let mut random = Random::new(82);
    for _ in 0..8 {
        let input = lines(&random::commands(&mut random, 800));
        assert_same("random.bin", &input);
    }
}

#[test]
fn long_lists() {
    let mut input: String = (1..=512)
        .map(|n| format!("add {n} {} 0\n", spread(n)))
        .collect();
    input += &format!("stand -{HALF_WIDTH} 0 {HALF_WIDTH} 0\n");
    input += &format!("print\nleg {HALF_WIDTH} 0 -{HALF_WIDTH} 1\n").repeat(30);
    assert_same("long.bin", &input);
}

#[test]
fn a_long_tour() {
    let mut random = Random::new(84);
    let mut coordinate = || random.between(-40, 40);
    let mut input: String = (1..=60)
        .map(|n| format!("add {n} {} {}\n", coordinate(), coordinate()))
        .collect();
    input += "tour 0 0\n";
    for _ in 0..3_000 {
        input += &format!("corner {} {}\n", coordinate(), coordinate());
    }
    assert_same("tour legs.bin", &input);
}

#[test]
fn megabytes() {
    let mut random = Random::new(83);
    let mut input = String::new();
    while input.len() < 2 << 20 {
        input += &lines(&random::commands(&mut random, 2_000));
    }
    assert_same("megabytes.bin", &input);
}

#[test]
fn the_example_input() {
    let tour = std::fs::read_to_string(at_root("examples/tour.txt")).unwrap();
    assert_same("tour.bin", &tour);
    let file = at_root("examples/tour.txt");
    assert_eq!(run(&[path(&file)], "").text(), run(&["-"], &tour).text());
}

#[test]
fn the_stored_example_of_the_batch_program() {
    let stored = |name: &str| std::fs::read(at_root("crates/stops").join(name)).unwrap();
    let example = run(&["--bytes"], "add 1 2 3\nadd 2 7 1\nleg 0 0 10 0");
    assert_eq!(example.out, stored("stdin"));
    assert_eq!(batch_program(&stored("stdin")), stored("stdout"));
    let decoded = run(&["--decode", "--plain"], stored("stdout"));
    let expected = "accepted\naccepted\nlist of 2 entries\nfrom 0/1 site 1\nfrom 37/100 site 2\nend 0: all commands used\n";
    assert_eq!((decoded.code, decoded.text()), (0, expected));
}
