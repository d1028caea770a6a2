//! Tours: their words, what ends them and what leaves them, in one run and over many, dumped,
//! checked, and decoded from bytes.

mod common;

use common::{
    HALF_WIDTH, OFF_GRID, STILL, batch_program, file_mode, on, run, run_program, scratch, table,
    without_points,
};
use reference::layout::{LAYOUTS, case};
use reference::random::Random;
use std::process::Command;

const SITES: &str = "add 1 2 3\nadd 2 7 1\n";
const END: &str = "end 0: all commands used\n";
const NO_TOUR: &str = "refused 8: no tour under way";

/// The plain answers to lines behind the two sites, without the end.
fn answered(lines: &str) -> Vec<String> {
    let ran = run(&["--plain"], format!("{SITES}{lines}"));
    assert_eq!(ran.err, "");
    let answers = ran.text().strip_suffix(END).unwrap().lines();
    answers.skip(2).map(String::from).collect()
}

#[test]
fn there_and_back() {
    let lines = "tour 0 0\ncorner 10 0\ncorner 0 0\ncorner 0 0\ncorner 3 0\ncorner 10 0\n";
    let ran = run(&[], format!("{SITES}{lines}"));
    let expected = "accepted
accepted
accepted
line 4: list of 2 entries, (0, 0) to (10, 0)
from 0/1 (0.000, 0.000) site 1
from 37/100 (3.700, 0.000) site 2
line 5: list of 1 entry, (10, 0) to (0, 0)
still site 2
from 63/100 (3.700, 0.000) site 1
line 6: list of 0 entries, (0, 0) to (0, 0)
still site 1
line 7: list of 0 entries, (0, 0) to (3, 0)
still site 1
line 8: list of 1 entry, (3, 0) to (10, 0)
still site 1
from 1/10 (3.700, 0.000) site 2
end 0: all commands used
";
    assert_eq!((ran.code, ran.text(), ran.err.as_str()), (0, expected, ""));
    let plain = run(&["--plain"], format!("{SITES}{lines}"));
    assert!(plain.text().contains("\nlist of 0 entries\nstill site 1\n"));
}

/// Two sites beside the leg, one on each side: of these the right one comes first there, and the
/// other one back, though both are as near.
#[test]
fn another_site_of_a_tie_is_listed() {
    let lines = "add 2 3 4\nadd 5 3 -4\ntour 0 0\ncorner 10 0\ncorner 0 0\ncorner 0 0\n";
    let ran = run(&["--plain"], lines);
    let lists = "list of 1 entry
from 0/1 (0.000, 0.000) site 5
list of 1 entry
from 0/1 (10.000, 0.000) site 2
list of 0 entries
still site 2
";
    assert!(ran.text().contains(lists), "{}", ran.text());
}

#[test]
fn without_a_tour() {
    let off_grid = format!("corner 0 {OFF_GRID}\n");
    // 8 comes before 2 and 6.
    for lines in ["corner 1 1\n", &off_grid] {
        let ran = run(&["--plain"], lines);
        assert_eq!(
            (ran.code, ran.text()),
            (1, format!("{NO_TOUR}\n{END}").as_str())
        );
    }
    let named = run(&[], "\ncorner 1 1\n");
    assert_eq!(named.text(), format!("line 2: {NO_TOUR}\n{END}"));
}

#[test]
fn accepted_changes_end_a_tour() {
    for change in ["add 3 0 0", "remove 1", "move 2 8 1", "move 2 7 1"] {
        let answers = answered(&format!("tour 0 0\ncorner 3 0\n{change}\ncorner 10 0\n"));
        assert_eq!(answers[3..], ["accepted", NO_TOUR], "{change}");
    }
    // Another one begins with a whole list, though the site is the same.
    let answers = answered("tour 0 0\ncorner 1 0\nmove 1 2 3\ntour 1 0\ncorner 0 0\n");
    let whole = ["list of 1 entry", "from 0/1 (1.000, 0.000) site 1"];
    assert_eq!(answers[answers.len() - 2..], whole);
}

#[test]
fn other_commands_leave_a_tour() {
    let off = OFF_GRID;
    for (line, answers) in [
        ("add 1 0 0".to_string(), 1),
        ("add 0 0 0".into(), 1),
        (format!("add 3 {off} 0"), 1),
        ("remove 9".into(), 1),
        ("move 9 0 0".into(), 1),
        (format!("tour {off} 0"), 1),
        (format!("corner 0 -{off}"), 1),
        ("print".into(), 1),
        ("stand 0 0 5 5".into(), 1),
        ("leg 0 0 10 0".into(), 3),
        ("nonsense".into(), 0),
        ("sites".into(), 3),
    ] {
        let lines = format!("{SITES}tour 10 0\ncorner 8 0\n{line}\ncorner 0 0\n");
        let ran = run(&["--plain"], lines);
        let told: Vec<&str> = ran.text().lines().skip(5 + answers).collect();
        let on = [
            "list of 1 entry",
            "still site 2",
            "from 43/80 (3.700, 0.000) site 1",
        ];
        assert_eq!(told[..3], on, "{line}: {}", ran.text());
    }
}

/// Without a site 43 is refused, and the corner stays.
#[test]
fn refusal_6_leaves_the_corner() {
    let lines = "tour 5 5\ncorner 1 1\ntouring\nadd 1 0 0\ntour 5 5\ncorner 5 6\ntouring\n";
    let ran = run(&[], lines);
    let expected = "accepted
line 2: refused 6: no site held
line 3: tour under way, last corner (5, 5), no site remembered
accepted
accepted
line 6: list of 1 entry, (5, 5) to (5, 6)
from 0/1 (5.000, 5.000) site 1
line 7: tour under way, last corner (5, 6), site 1 remembered
end 0: all commands used
";
    assert_eq!((ran.code, ran.text()), (1, expected));
}

#[test]
fn a_tour_within_a_tour_begins_anew() {
    let answers = answered("tour 0 0\ncorner 3 0\ntour 1 0\ncorner 0 0\ncorner 1 0\n");
    let expected = [
        "accepted",
        "list of 1 entry",
        "from 0/1 (0.000, 0.000) site 1",
        "accepted",
        "list of 1 entry",
        "from 0/1 (1.000, 0.000) site 1",
        "list of 0 entries",
        "still site 1",
    ];
    assert_eq!(answers, expected);
}

/// The list of each leg as the words of `leg` have it, from those of a tour.
fn as_whole(answer: &[&str]) -> Vec<String> {
    let entry = |line: &str| match line.strip_prefix("still ") {
        Some(site) => format!("from 0/1 {site}"),
        None => line.to_string(),
    };
    answer[1..].iter().map(|line| entry(line)).collect()
}

/// What the words tell of a leg is what they tell of it alone, whatever is left out; the input is
/// so long that it comes in several pieces, and the reports do, too.
#[test]
fn each_leg_is_told_as_it_is_alone() {
    let mut random = Random::new(311);
    let mut shortened = 0;
    for layout in LAYOUTS {
        let case = case(&mut random, layout, 40);
        let add = |site: &reference::grid::Site| {
            let at = site.position;
            format!("add {} {} {}\n", site.number, at.east, at.north)
        };
        let mut input: String = case.sites.iter().map(add).collect();
        let spots = [case.leg.s, case.leg.e];
        let sites = case.sites.iter().map(|site| site.position);
        let spots: Vec<_> = sites.chain(spots).collect();
        let mut last = random.pick(&spots);
        input += &format!("tour {} {}\n", last.east, last.north);
        let before = case.sites.len() + 1;
        for _ in 0..2_500 {
            let next = random.pick(&spots);
            let (from, to) = (
                format!("{} {}", last.east, last.north),
                format!("{} {}", next.east, next.north),
            );
            input += &format!("corner {to}\nleg {from} {to}\n");
            last = next;
        }
        assert!(input.len() > 65_536, "{}", input.len());
        let ran = run(&["--plain"], input);
        assert_eq!((ran.code, ran.err.as_str()), (0, ""));
        let text = without_points(ran.text());
        let told: Vec<&str> = text.lines().skip(before).collect();
        let mut lists: Vec<&[&str]> = Vec::new();
        let mut rest = &told[..told.len() - 1];
        while !rest.is_empty() {
            let length = 1 + rest[1..]
                .iter()
                .take_while(|line| !line.starts_with("list"))
                .count();
            let (list, others) = rest.split_at(length);
            lists.push(list);
            rest = others;
        }
        assert_eq!(lists.len(), 5_000);
        for pair in lists.chunks(2) {
            shortened += usize::from(pair[0][1].starts_with("still site "));
            assert_eq!(as_whole(pair[0]), pair[1][1..], "{layout:?}");
        }
    }
    assert!(shortened > 1_000, "{shortened}");
}

#[test]
fn a_tour_goes_on_in_another_run() {
    let file = table("tour");
    let begun = on(&file, &["--create"], &format!("{SITES}tour 0 0\n"));
    assert_eq!(begun.code, 0);
    let runs = [
        (
            "touring\n",
            "line 1: tour under way, last corner (0, 0), no site remembered\n",
        ),
        (
            "corner 10 0\n",
            "line 1: list of 2 entries, (0, 0) to (10, 0)\n\
             from 0/1 (0.000, 0.000) site 1\n\
             from 37/100 (3.700, 0.000) site 2\n",
        ),
        (
            "touring\n",
            "line 1: tour under way, last corner (10, 0), site 2 remembered\n",
        ),
        (
            "corner 8 0\n",
            "line 1: list of 0 entries, (10, 0) to (8, 0)\nstill site 2\n",
        ),
        // Two in one run: the first is followed from the table, the second from its record.
        (
            "corner 9 0\ncorner 0 0\n",
            "line 1: list of 0 entries, (8, 0) to (9, 0)\n\
             still site 2\n\
             line 2: list of 1 entry, (9, 0) to (0, 0)\n\
             still site 2\n\
             from 53/90 (3.700, 0.000) site 1\n",
        ),
        (
            "corner 1 0\n",
            "line 1: list of 0 entries, (0, 0) to (1, 0)\nstill site 1\n",
        ),
        ("remove 2\n", "accepted\n"),
        ("corner 0 0\n", "line 1: refused 8: no tour under way\n"),
        ("touring\n", "line 1: no tour under way\n"),
    ];
    for (line, answer) in runs {
        let ran = on(&file, &[], line);
        assert_eq!(ran.text(), format!("{answer}{END}"), "{line}");
        assert_eq!(ran.err, "");
    }
}

#[test]
fn a_tour_is_dumped_at_its_last_corner() {
    let (file, fresh) = (table("dumped"), table("dumped anew"));
    on(
        &file,
        &["--create"],
        &format!("{SITES}stand 0 0 5 5\ntour 0 0\n"),
    );
    // Nothing is lost before the first leg.
    let dump = file_mode("--dump", &file);
    let lines = "add 1 2 3\nadd 2 7 1\nstand 0 0 5 5\ntour 0 0\n";
    assert_eq!((dump.code, dump.text(), dump.err.as_str()), (0, lines, ""));
    on(&file, &[], "corner 10 0\n");
    let before = std::fs::read(&file).unwrap();
    let dump = file_mode("--dump", &file);
    let lines = "add 1 2 3\nadd 2 7 1\nstand 0 0 5 5\ntour 10 0\n";
    let note = format!(
        "stops-text: {} has a tour under way: \
         the lines begin it anew at its last corner, so its next list is a whole one\n",
        file.display()
    );
    assert_eq!((dump.code, dump.text(), &dump.err), (0, lines, &note));
    assert!(std::fs::read(&file).unwrap() == before);
    assert_eq!(on(&fresh, &["--create"], dump.text()).code, 0);
    let again = file_mode("--dump", &fresh);
    assert_eq!((again.text(), again.err.as_str()), (lines, ""));
    // The same leg, told whole where the table itself leaves out what was told.
    let list = "line 1: list of 1 entry, (10, 0) to (8, 0)\nfrom 0/1 (10.000, 0.000) site 2\n";
    let still = "line 1: list of 0 entries, (10, 0) to (8, 0)\nstill site 2\n";
    assert_eq!(
        on(&fresh, &[], "corner 8 0\n").text(),
        format!("{list}{END}")
    );
    assert_eq!(
        on(&file, &[], "corner 8 0\n").text(),
        format!("{still}{END}")
    );
    // From here on they answer alike.
    for line in ["corner 0 0\n", "corner 0 0\n", "corner 10 10\n", "print\n"] {
        assert_eq!(on(&fresh, &[], line).text(), on(&file, &[], line).text());
    }
}

#[test]
fn corners_at_the_edges_are_kept_and_dumped() {
    let h = HALF_WIDTH;
    for (east, north) in [(-h, h), (h, -h), (h, h), (-h, -h), (0, 0)] {
        let file = table("edges");
        on(
            &file,
            &["--create"],
            &format!("add 7 0 0\ntour {east} {north}\n"),
        );
        let dump = file_mode("--dump", &file);
        assert_eq!(dump.text(), format!("add 7 0 0\ntour {east} {north}\n"));
        let told = on(&file, &[], "touring\n");
        let corner = format!("line 1: tour under way, last corner ({east}, {north}), ");
        assert!(told.text().starts_with(&corner), "{}", told.text());
    }
}

#[test]
fn a_sound_table_with_a_tour_is_told() {
    let file = table("sound tour");
    on(&file, &["--create"], &format!("{SITES}tour 0 0\n"));
    let counts = "sound: no rule is broken\n2 sites, tree of 1 level, 1 node\nno standing leg\n";
    let ran = file_mode("--check", &file);
    let tour = "tour under way, last corner (0, 0), no site remembered\n";
    assert_eq!(
        (ran.code, ran.text()),
        (0, format!("{counts}{tour}").as_str())
    );
    on(&file, &[], "corner -3 9\n");
    let ran = file_mode("--check", &file);
    let tour = "tour under way, last corner (-3, 9), site 1 remembered\n";
    assert_eq!(
        (ran.code, ran.text()),
        (0, format!("{counts}{tour}").as_str())
    );
}

#[test]
fn a_broken_tour_is_told_with_the_sites() {
    let file = table("broken tour");
    on(
        &file,
        &["--create"],
        &format!("{SITES}tour 0 0\ncorner 9 0\n"),
    );
    let sound = std::fs::read(&file).unwrap();
    for (at, word, what) in [
        (
            16,
            2u16,
            "tour: 1 while a tour is under way, else 0, byte 16: 2 stands there",
        ),
        (
            18,
            24_001,
            "tour: the easting of the last corner is off the grid, 0 to 24,000 from its edge, \
             byte 18: 24,001 stands there",
        ),
        (
            20,
            65_535,
            "tour: the northing of the last corner is off the grid, 0 to 24,000 from its edge, \
             byte 20: 65,535 stands there",
        ),
        (
            22,
            3,
            "tour: the remembered site is not held, byte 22: 3 stands there",
        ),
        (
            24,
            1,
            "header: kept for later, byte 24: 1 stands there, 0 belongs there",
        ),
    ] {
        let mut bytes = sound.clone();
        bytes[at..at + 2].copy_from_slice(&word.to_le_bytes());
        std::fs::write(&file, &bytes).unwrap();
        let ran = file_mode("--check", &file);
        let expected = format!(
            "broken: the service refuses it with reason 65\n{what}\nsites that can still be read: 2\n{SITES}"
        );
        assert_eq!((ran.code, ran.text()), (5, expected.as_str()));
        // The service says the same.
        let served = on(&file, &[], "touring\n");
        assert_eq!((served.code, served.text()), (5, ""));
        assert_eq!(file_mode("--dump", &file).code, 5);
    }
}

#[test]
fn lines_become_the_bytes_of_42_and_43() {
    let ran = run(&["--bytes"], "tour 1 -2\ncorner -3 258\ntouring\n");
    assert_eq!(ran.out, [0x42, 1, 0, 0xFE, 0xFF, 0x43, 0xFD, 0xFF, 2, 1]);
    let message = "stops-text: line 3: touring has no command bytes: stops-text does it itself\n";
    assert_eq!((ran.code, ran.err.as_str()), (2, message));
}

fn entry(site: u8, n: u8, d: u8) -> Vec<u8> {
    vec![site, 0, n, 0, 0, 0, d, 0, 0, 0]
}

fn list(entries: &[(u8, u8, u8)]) -> Vec<u8> {
    let count = u8::try_from(entries.len()).unwrap();
    let entries = entries.iter().flat_map(|(site, n, d)| entry(*site, *n, *d));
    [0x3D, count, 0].into_iter().chain(entries).collect()
}

/// The words for these records, the end mark behind them, as the answers to lines.
fn decoded(lines: &str, records: &[Vec<u8>]) -> (i32, String, String) {
    let commands = run(&["--bytes"], lines);
    assert_eq!(commands.code, 0);
    let file = scratch("commands.bin");
    std::fs::write(&file, &commands.out).unwrap();
    let mut program = Command::new(common::PROGRAM);
    program.arg("--decode").arg("--commands").arg(&file);
    let output = [records.concat(), vec![0x2E, 0]].concat();
    let ran = run_program(&mut program, &output);
    (ran.code, ran.text().into(), ran.err)
}

const ACCEPTED: [u8; 1] = [0x2B];

#[test]
fn decoded_tours_are_followed() {
    let lines = "tour 0 0\ncorner 10 0\nleg 0 0 1 1\nprint\ncorner 0 0\ncorner 3 0\n\
                 remove 9\ncorner 0 0\nremove 1\ncorner 1 1\n";
    let records = [
        ACCEPTED.to_vec(),
        list(&[(1, 0, 1), (2, 37, 100)]),
        list(&[(7, 0, 1)]),
        vec![0x21, 7],
        list(&[(1, 63, 100)]),
        list(&[]),
        vec![0x21, 4],
        list(&[]),
        ACCEPTED.to_vec(),
        vec![0x21, 8],
    ];
    let expected = "accepted
command 2: list of 2 entries, (0, 0) to (10, 0)
from 0/1 (0.000, 0.000) site 1
from 37/100 (3.700, 0.000) site 2
command 3: list of 1 entry, (0, 0) to (1, 1)
from 0/1 (0.000, 0.000) site 7
command 4: refused 7: no standing leg
command 5: list of 1 entry, (10, 0) to (0, 0)
still site 2
from 63/100 (3.700, 0.000) site 1
command 6: list of 0 entries, (0, 0) to (3, 0)
still site 1
command 7: refused 4: number not held
command 8: list of 0 entries, (3, 0) to (0, 0)
still site 1
accepted
command 10: refused 8: no tour under way
end 0: all commands used
";
    let told = decoded(lines, &records);
    assert_eq!(told, (1, expected.into(), String::new()));
}

/// Where the commands begin in mid-tour, corner and site are not known until they come up.
#[test]
fn decoded_from_the_middle_of_a_tour() {
    let lines = "corner 10 0\ncorner 0 0\ncorner 5 0\n";
    let records = [list(&[]), list(&[(1, 63, 100)]), list(&[])];
    let expected = format!(
        "command 1: list of 0 entries
{STILL}
command 2: list of 1 entry, (10, 0) to (0, 0)
{STILL}
from 63/100 (3.700, 0.000) site 1
command 3: list of 0 entries, (0, 0) to (5, 0)
still site 1
{END}"
    );
    assert_eq!(decoded(lines, &records), (0, expected, String::new()));
}

#[test]
fn decoded_without_commands() {
    let records = [
        ACCEPTED.to_vec(),
        list(&[(1, 0, 1)]),
        list(&[(2, 1, 3)]),
        list(&[]),
        vec![0x21, 8, 0x2E, 0],
    ];
    let ran = run(&["--decode"], records.concat());
    let expected = format!(
        "accepted
command 2: list of 1 entry
from 0/1 site 1
command 3: list of 1 entry
{STILL}
from 1/3 site 2
command 4: list of 0 entries
{STILL}
command 5: {NO_TOUR}
{END}"
    );
    assert_eq!((ran.code, ran.text()), (1, expected.as_str()));
}

#[test]
fn records_that_answer_another_command() {
    let whole = list(&[(1, 0, 1)]);
    for (line, record) in [
        ("leg 0 0 1 1\n", list(&[])),
        ("leg 0 0 1 1\n", list(&[(1, 1, 2)])),
        ("print\n", list(&[])),
        ("print\n", list(&[(1, 1, 2)])),
        ("tour 0 0\n", whole.clone()),
        ("tour 0 0\n", list(&[])),
        ("corner 0 0\n", ACCEPTED.to_vec()),
    ] {
        let (code, text, error) = decoded(line, &[record]);
        let fault = "stops-text: byte 0: the record does not answer its command\n";
        assert_eq!((code, text.as_str(), error.as_str()), (2, "", fault));
    }
    for (line, record) in [("leg 0 0 1 1\n", whole.clone()), ("corner 0 0\n", whole)] {
        assert_eq!(decoded(line, &[record]).0, 0);
    }
}

/// What the batch program says of a tour is what the run says.
#[test]
fn through_the_batch_program() {
    let lines = format!("{SITES}corner 1 1\ntour 0 0\ncorner 10 0\ncorner 0 0\ncorner 3 0\n");
    let bytes = run(&["--bytes"], &lines).out;
    let file = scratch("batch.bin");
    std::fs::write(&file, &bytes).unwrap();
    let mut program = Command::new(common::PROGRAM);
    program
        .args(["--decode", "--plain", "--commands"])
        .arg(&file);
    let told = run_program(&mut program, &batch_program(&bytes));
    let direct = run(&["--plain"], &lines);
    assert_eq!((told.code, told.text()), (direct.code, direct.text()));
}
