//! Where pictures go: never over an input, nor over a file that is no picture.

mod common;

use common::{PROGRAM, Ran, run_program, scratch};
use std::path::{Path, PathBuf};
use std::process::Command;

const STOPS: &str = "add 1 2 3\nadd 2 7 1\nleg 0 0 10 0\n";

fn folder(name: &str) -> PathBuf {
    let folder = scratch(&format!("guard {name}"));
    let _ = std::fs::remove_dir_all(&folder);
    std::fs::create_dir_all(&folder).unwrap();
    folder
}

fn drawn(folder: &Path, options: &[&str], input: &str) -> Ran {
    let mut program = Command::new(PROGRAM);
    program.current_dir(folder).args(options);
    run_program(&mut program, input.as_bytes())
}

fn refused(ran: &Ran, why: &str) {
    assert_eq!(ran.code, 4, "{}", ran.err);
    assert!(ran.err.contains(why), "{}", ran.err);
}

#[test]
fn an_input_is_not_overwritten() {
    let folder = folder("input");
    let lines = folder.join("lines.txt");
    std::fs::write(&lines, STOPS).unwrap();
    let link = folder.join("link.svg");
    std::os::unix::fs::symlink("lines.txt", &link).unwrap();
    for out in ["lines.txt", "./lines.txt", "link.svg"] {
        let ran = drawn(&folder, &["--svg", out, "lines.txt"], "");
        refused(&ran, "it is an input; --force overwrites it");
        // It is found before anything is done.
        assert_eq!(ran.text(), "");
        assert_eq!(std::fs::read_to_string(&lines).unwrap(), STOPS);
    }
    // The gate takes no link in the checkout.
    std::fs::remove_file(&link).unwrap();
    let mut redirected = Command::new(PROGRAM);
    redirected
        .arg("--svg")
        .arg(&lines)
        .stdin(std::fs::File::open(&lines).unwrap());
    let output = redirected.output().unwrap();
    assert_eq!(output.status.code(), Some(4));
    assert_eq!(std::fs::read_to_string(&lines).unwrap(), STOPS);
    // As a line, too: the run goes on.
    let line = drawn(&folder, &["lines.txt"], "");
    assert_eq!(line.code, 0);
    std::fs::write(&lines, format!("{STOPS}draw lines.txt\nprint\n")).unwrap();
    let ran = drawn(&folder, &["lines.txt"], "");
    refused(&ran, "line 4: cannot write lines.txt: it is an input");
    assert!(ran.text().contains("line 5: refused 7"));
}

#[test]
fn a_table_is_an_input() {
    let folder = folder("table");
    drawn(&folder, &["--table", "t.svg", "--create"], STOPS);
    let before = std::fs::read(folder.join("t.svg")).unwrap();
    let ran = drawn(&folder, &["--table", "t.svg", "--svg", "t.svg"], STOPS);
    refused(&ran, "it is an input");
    assert!(std::fs::read(folder.join("t.svg")).unwrap() == before);
}

#[test]
fn a_file_that_is_no_svg_is_not_overwritten() {
    let folder = folder("other");
    for text in ["my thesis", "<html><body/></html>", "a <svg"] {
        std::fs::write(folder.join("out"), text).unwrap();
        for lines in [STOPS, "draw out\n"] {
            let options: &[&str] = if lines == STOPS {
                &["--svg", "out"]
            } else {
                &[]
            };
            refused(
                &drawn(&folder, options, lines),
                "it is no SVG; --force overwrites it",
            );
            assert_eq!(std::fs::read_to_string(folder.join("out")).unwrap(), text);
        }
    }
    let ran = drawn(&folder, &["--svg", "out", "--force"], STOPS);
    assert_eq!((ran.code, ran.err.as_str()), (0, ""));
    assert!(
        std::fs::read_to_string(folder.join("out"))
            .unwrap()
            .starts_with("<svg")
    );
}

#[test]
fn pictures_and_empty_files_are_overwritten() {
    let folder = folder("pictures");
    for before in [
        "",
        "<svg></svg>",
        "<?xml version=\"1.0\"?>\n<!-- -->\n<svg/>",
    ] {
        std::fs::write(folder.join("out"), before).unwrap();
        assert_eq!(drawn(&folder, &["--svg=out"], STOPS).code, 0);
        let after = std::fs::read_to_string(folder.join("out")).unwrap();
        assert!(after.starts_with("<svg") && after.len() > 1_000);
    }
    assert_eq!(drawn(&folder, &["--svg", "/dev/null"], STOPS).code, 0);
}

#[test]
fn a_dash_is_standard_output() {
    let folder = folder("dash");
    let there = drawn(&folder, &["--svg", "there.svg"], STOPS);
    for option in [&["--svg", "-"][..], &["--svg=-"]] {
        let ran = drawn(&folder, option, STOPS);
        assert_eq!(
            ran.text(),
            std::fs::read_to_string(folder.join("there.svg")).unwrap()
        );
        assert_eq!((ran.code, ran.err.as_str()), (0, there.text()));
    }
}

#[test]
fn pictures_on_the_way() {
    let folder = folder("way");
    let ran = drawn(
        &folder,
        &[],
        &format!("{STOPS}draw a.svg\nremove 1\ndraw b.svg\n"),
    );
    assert_eq!(ran.code, 0, "{}", ran.err);
    assert!(
        ran.text()
            .contains("\nline 4: drawn\naccepted\nline 6: drawn\n")
    );
    let read = |name| std::fs::read_to_string(folder.join(name)).unwrap();
    assert!(read("a.svg").contains("2 sites") && read("b.svg").contains("1 site"));
}
