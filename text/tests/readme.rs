//! README's commands do what it says.

mod common;

use common::{PROGRAM, at_root, scratch};
use std::process::Command;

const SHOWN: &str = "text/target/release/stops-text";

fn readme() -> String {
    std::fs::read_to_string(at_root("README.md")).unwrap()
}

/// What a shell prints, in a folder with the examples.
fn shell(command: &str) -> String {
    let folder = scratch("readme");
    std::fs::create_dir_all(folder.join("docs")).unwrap();
    std::fs::create_dir_all(folder.join("examples")).unwrap();
    for example in std::fs::read_dir(at_root("examples")).unwrap() {
        let example = example.unwrap();
        let copy = folder.join("examples").join(example.file_name());
        std::fs::copy(example.path(), copy).unwrap();
    }
    let command = command.replace(SHOWN, PROGRAM);
    let mut shell = Command::new("sh");
    let output = shell
        .current_dir(folder)
        .arg("-c")
        .arg(&command)
        .output()
        .unwrap();
    let code = output.status.code().unwrap();
    // 1: a command was refused.
    assert!(code <= 1, "{command}: {output:?}");
    String::from_utf8(output.stdout).unwrap()
}

#[test]
fn each_example_prints_what_is_shown() {
    let readme = readme();
    let examples: Vec<&str> = readme.split("    $ ").skip(1).collect();
    assert_eq!(examples.len(), 3);
    for example in examples {
        let (command, rest) = example.split_once('\n').unwrap();
        let shown = rest.lines().map_while(|line| line.strip_prefix("    "));
        let shown: String = shown.map(|line| format!("{line}\n")).collect();
        assert_eq!(shell(command), shown);
    }
}

#[test]
fn every_other_command_of_stops_text_works() {
    let readme = readme();
    let commands: Vec<&str> = readme
        .lines()
        .filter_map(|line| line.strip_prefix("    "))
        .filter(|line| line.starts_with(SHOWN))
        .collect();
    assert_eq!(commands.len(), 4);
    for command in commands {
        shell(command);
    }
}

#[test]
fn every_target_is_one_of_the_makefile() {
    let makefile = std::fs::read_to_string(at_root("Makefile")).unwrap();
    let phony = makefile
        .lines()
        .find_map(|line| line.strip_prefix(".PHONY: "));
    let known: Vec<&str> = phony.unwrap().split(' ').collect();
    let readme = readme();
    let lines = readme
        .lines()
        .filter_map(|line| line.strip_prefix("    make "));
    let targets: Vec<&str> = lines.map(|line| line.split(' ').next().unwrap()).collect();
    assert!(targets.len() >= 8, "{targets:?}");
    assert!(
        targets.iter().all(|target| known.contains(target)),
        "{targets:?}"
    );
}

/// Each document that README points to is there.
#[test]
fn every_document_is_there() {
    let readme = readme();
    let named: Vec<&str> = readme
        .split('`')
        .filter(|word| word.starts_with("docs/") && word.ends_with(".md"))
        .collect();
    assert!(named.len() >= 6, "{named:?}");
    assert!(
        named.iter().all(|name| at_root(name).is_file()),
        "{named:?}"
    );
}
