//! Answers in words: every refusal, the example of document 01, its legs to try, and legs asked of
//! a table that changes.

mod common;

use common::{OFF_GRID, run, span};

/// The answers to lines that are all good.
fn answers(lines: &str) -> (i32, Vec<String>) {
    let ran = run(&["--plain"], lines);
    assert_eq!(ran.err, "");
    let mut answers: Vec<String> = ran.text().lines().map(String::from).collect();
    assert_eq!(answers.pop().as_deref(), Some("end 0: all commands used"));
    (ran.code, answers)
}

#[test]
fn every_refusal() {
    let full: String = (1..=512).map(|n| format!("add {n} {n} 0\n")).collect();
    let off_grid = format!("refused 2: a coordinate outside {}", span());
    let cases = [
        (
            &format!("add 0 {OFF_GRID} 0\n")[..],
            "refused 1: site number 0",
        ),
        ("remove 0\n", "refused 1: site number 0"),
        ("move 0 0 0\n", "refused 1: site number 0"),
        (&format!("add 1 {OFF_GRID} 0\n"), &off_grid),
        (&format!("move 1 0 -{OFF_GRID}\n"), &off_grid),
        (&format!("stand 0 0 -{OFF_GRID} 0\n"), &off_grid),
        (&format!("leg 0 {OFF_GRID} 0 0\n"), &off_grid),
        ("stand 0 0 0 -32768\n", &off_grid),
        ("leg 0 32767 0 0\n", &off_grid),
        ("add 7 0 0\nadd 7 1 1\n", "refused 3: number already held"),
        ("remove 7\n", "refused 4: number not held"),
        ("move 7 0 0\n", "refused 4: number not held"),
        (&format!("{full}add 513 0 0\n"), "refused 5: 512 sites held"),
        ("leg 0 0 10 0\n", "refused 6: no site held"),
        ("stand 0 0 10 0\nprint\n", "refused 6: no site held"),
        ("print\n", "refused 7: no standing leg"),
    ];
    for (lines, last) in cases {
        let (code, answers) = answers(lines);
        assert_eq!((code, answers.last().unwrap().as_str()), (1, last));
        assert!(
            answers
                .iter()
                .rev()
                .skip(1)
                .all(|answer| answer == "accepted")
        );
    }
}

#[test]
fn the_example_of_document_01() {
    let expected = [
        "accepted",
        "accepted",
        "list of 2 entries",
        "from 0/1 (0.000, 0.000) site 1",
        "from 37/100 (3.700, 0.000) site 2",
    ];
    let example = answers("add 1 2 3\nadd 2 7 1\nleg 0 0 10 0\n");
    assert_eq!(example, (0, expected.map(String::from).to_vec()));
}

/// The starred legs that end in a list.
#[test]
fn legs_to_try() {
    let leg = "leg 0 0 10 0\n";
    let cases = [
        (
            "add 1 2 3\nadd 2 7 1\nadd 3 9 -4\n",
            leg,
            "0/1 (0.000, 0.000) site 1,37/100 (3.700, 0.000) site 2",
        ),
        // C-11 of document 02: one on the right comes first, and on the way back the other.
        ("add 2 3 4\nadd 5 3 -4\n", leg, "0/1 (0.000, 0.000) site 5"),
        (
            "add 2 3 4\nadd 5 3 -4\n",
            "leg 10 0 0 0\n",
            "0/1 (10.000, 0.000) site 2",
        ),
        (
            "add 1 0 0\nadd 2 10 0\nadd 3 5 5\n",
            leg,
            "0/1 (0.000, 0.000) site 1,1/2 (5.000, 0.000) site 2",
        ),
        ("add 1 -2 0\nadd 2 2 0\n", leg, "0/1 (0.000, 0.000) site 2"),
        ("add 1 8 0\nadd 2 12 0\n", leg, "0/1 (0.000, 0.000) site 1"),
        (
            "add 7 4 5\nadd 3 5 4\n",
            "leg 4 4 4 4\n",
            "0/1 (4.000, 4.000) site 3",
        ),
        (
            "add 1 -8000 -8000\nadd 2 8000 8000\n",
            "leg -8000 -8000 8000 8000\n",
            "0/1 (-8000.000, -8000.000) site 1,1/2 (0.000, 0.000) site 2",
        ),
        // C-12 of document 02: a denominator that is no signed word of 32 bits.
        (
            "add 1 -11999 -12000\nadd 2 12000 12000\n",
            "leg -12000 -12000 12000 12000\n",
            "0/1 (-12000.000, -12000.000) site 1,1151999999/2303952000 (0.250, 0.250) site 2",
        ),
    ];
    for (sites, leg, list) in cases {
        let (code, answers) = answers(&format!("{sites}{leg}"));
        let entries: Vec<&str> = answers
            .iter()
            .filter_map(|line| line.strip_prefix("from "))
            .collect();
        assert_eq!((code, entries.join(",")), (0, list.to_string()));
    }
}

#[test]
fn the_standing_leg_is_the_last_accepted_one() {
    let lines = format!(
        "stand 0 0 10 0\nadd 1 0 0\nadd 2 4 0\nprint\nstand 0 0 {OFF_GRID} 0\nprint\nstand 4 0 0 0\nprint\n"
    );
    let (code, answers) = answers(&lines);
    let entries: Vec<&str> = answers
        .iter()
        .filter_map(|line| line.strip_prefix("from "))
        .collect();
    let first = ["0/1 (0.000, 0.000) site 1", "1/5 (2.000, 0.000) site 2"];
    let last = ["0/1 (4.000, 0.000) site 2", "1/2 (2.000, 0.000) site 1"];
    assert_eq!((code, entries), (1, [first, first, last].concat()));
}

#[test]
fn nothing_to_do() {
    for input in ["", "\n\n", "# nothing\n", "   \t\r\n#"] {
        assert_eq!(answers(input), (0, vec![]));
    }
}
