//! Lines typed on a terminal: a banner, a prompt, help, quit and draw; and nothing of it in a pipe.

mod common;
#[path = "common/terminal.rs"]
mod terminal;

use common::{PROGRAM, run, scratch};
use std::io::Write;
use std::process::{Command, Stdio};
use terminal::{shown, terminal};

const BANNER: &str = concat!(
    "stops-text ",
    env!("CARGO_PKG_VERSION"),
    ": help lists the lines, quit ends"
);

/// What a terminal shows on which these bytes are typed; the last ones end the program.
fn typed(options: &[&str], bytes: &[u8]) -> (i32, String) {
    let (screen, line) = terminal();
    (&screen).write_all(bytes).unwrap();
    let mut child = Command::new(PROGRAM)
        .args(options)
        .current_dir(scratch("."))
        .stdin(line.try_clone().unwrap())
        .stdout(line.try_clone().unwrap())
        .stderr(line)
        .spawn()
        .unwrap();
    let code = child.wait().unwrap().code().unwrap();
    (code, shown(screen).replace("\r\n", "\n"))
}

#[test]
fn a_banner_a_prompt_and_quit() {
    let (code, shown) = typed(&[], b"add 1 2 3\nprint\nquit\nprint\n");
    assert_eq!(code, 1);
    let expected = [
        BANNER,
        "> accepted",
        "> line 2: refused 7: no standing leg",
        "> end 0: all commands used\n",
    ];
    assert!(shown.ends_with(&expected.join("\n")), "{shown}");
    assert!(!shown.contains("read "));
}

#[test]
fn a_tour_is_typed() {
    let lines = b"add 1 2 3\ncorner 9 9\ntour 0 0\ncorner 9 9\ncorner 0 0\ntouring\nquit\n";
    let (code, shown) = typed(&[], lines);
    assert_eq!(code, 1);
    let expected = [
        "> line 2: refused 8: no tour under way",
        "> accepted",
        "> line 4: list of 1 entry, (0, 0) to (9, 9)",
        "from 0/1 (0.000, 0.000) site 1",
        "> line 5: list of 0 entries, (9, 9) to (0, 0)",
        "still site 1",
        "> line 6: tour under way, last corner (0, 0), site 1 remembered",
        "> end 0: all commands used\n",
    ];
    assert!(shown.ends_with(&expected.join("\n")), "{shown}");
}

#[test]
fn readings_are_typed_and_their_steps_shown() {
    let lines = b"add 1 249.5m 250m\nmove 1 0x7F800000m 0m\nadd 2 1e3m 0m\nsites\nquit\n";
    let (code, shown) = typed(&[], lines);
    assert_eq!(code, 2);
    let expected = [
        "> accepted",
        "add 1 249.5m 250m # step 2 3",
        "> line 2: refused 11: a reading is not a finite number",
        "move 1 0x7F800000m 0m # easting not finite, northing step 0",
        "> stops-text: line 3: \"1e3m\" is not a reading, such as -1234.5m or 0x7FC00001m",
        "> line 4: 1 site",
        "site 1 at (2, 3)",
        "> end 0: all commands used\n",
    ];
    assert!(shown.ends_with(&expected.join("\n")), "{shown}");
}

#[test]
fn the_end_of_what_is_typed_has_a_line_of_its_own() {
    let (code, shown) = typed(&[], b"add 1 2 3\n\x04");
    assert_eq!(code, 0);
    assert!(
        shown.ends_with("> accepted\n> \nend 0: all commands used\n"),
        "{shown}"
    );
}

#[test]
fn help_lists_the_lines() {
    let (code, shown) = typed(&[], b"help\nquit\n");
    assert_eq!(code, 0);
    let help = run(&["--help"], "");
    let lines = help.text().split("LINES\n").nth(1).unwrap();
    let lines = lines.split("\nANSWERS").next().unwrap().trim_end();
    assert!(shown.contains(&format!("> {lines}\n> ")), "{shown}");
}

#[test]
fn draw_draws() {
    let picture = scratch("typed.svg");
    let _ = std::fs::remove_file(&picture);
    let (code, shown) = typed(&[], b"add 1 2 3\nleg 0 0 9 9\ndraw typed.svg\nquit\n");
    assert_eq!(code, 0, "{shown}");
    assert!(shown.contains("> line 3: drawn\n"), "{shown}");
    let svg = std::fs::read_to_string(&picture).unwrap();
    assert!(svg.starts_with("<svg") && svg.contains("Leg (0, 0) to (9, 9): 1 stretch, 1 site"));
}

#[test]
fn a_table_that_is_typed_is_kept() {
    let file = scratch("typed.stops");
    let _ = std::fs::remove_file(&file);
    let options = ["--table", file.to_str().unwrap(), "--create"];
    typed(&options, b"add 7 1 1\nquit\n");
    let (_, shown) = typed(&options, b"sites\nquit\n");
    assert!(
        shown.contains("> line 1: 1 site\nsite 7 at (1, 1)\n> "),
        "{shown}"
    );
}

#[test]
fn nothing_of_it_in_a_pipe() {
    let ran = run(&[], "add 1 2 3\nquit\n");
    assert_eq!(
        (ran.text(), ran.err.as_str()),
        ("accepted\nend 0: all commands used\n", "")
    );
    // Typed, but read by another program.
    let (screen, line) = terminal();
    (&screen).write_all(b"add 1 2 3\nquit\n").unwrap();
    let child = Command::new(PROGRAM)
        .stdin(line.try_clone().unwrap())
        .stdout(Stdio::piped())
        .stderr(line)
        .spawn()
        .unwrap();
    let output = child.wait_with_output().unwrap();
    assert_eq!(output.stdout, b"accepted\nend 0: all commands used\n");
    assert!(!shown(screen).contains("stops-text"));
    // Asked on a terminal for lines that come from a pipe.
    let (screen, line) = terminal();
    let mut child = Command::new(PROGRAM)
        .stdin(Stdio::piped())
        .stdout(line.try_clone().unwrap())
        .stderr(line)
        .spawn()
        .unwrap();
    child
        .stdin
        .take()
        .unwrap()
        .write_all(b"add 1 2 3\n")
        .unwrap();
    child.wait().unwrap();
    assert_eq!(shown(screen), "accepted\r\nend 0: all commands used\r\n");
}
