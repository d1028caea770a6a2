//! Tables that releases left: taken as they are where they are sound today, and otherwise refused by
//! the service, told by --check, and carried over by --dump.

mod common;

use common::{answers_from, at_root, file_mode, in_words, on, run, table, without_points};
use reference::book::{Book, Tour};
use reference::command::Command;
use reference::grid::Position;
use reference::record::Record;
use reference::ties::{number_alone, renamed};
use service::bytes::{self, LEG_WORDS, TOUR, listed, put_word, word};
use service::damage::aged;
use std::path::Path;

/// What the stops-text of a release left: a table that it began empty and saved after some 700
/// random additions, removals and moves, the grid's corners among them; its --dump; lines that ask for lists,
/// and what it answered to them with --plain.
fn kept(table: &str, what: &str) -> Vec<u8> {
    let file = at_root("tests/tables").join(format!("{table}.{what}"));
    std::fs::read(&file).unwrap_or_else(|error| panic!("{}: {error}", file.display()))
}

/// Sites tie in its answers, where the right-hand rule names the same ones.
const OF_0_7_0: &str = "release-0.7.0";
/// Both have many sites beside a slanted standing leg, each with others that tie with it: on the
/// same position, or mirrored across the leg. The right-hand rule names other ones of them in the
/// standing list of the first.
const CHANGED: &str = "release-0.8.0-changed";
const UNCHANGED: &str = "release-0.8.0-unchanged";
/// As many ties; its standing list is by the right-hand rule, and by number alone another one.
const OF_0_9_0: &str = "release-0.9.0";
/// The same, with a tour of three legs under way; tour and corner lines are asked, too.
const TOURING: &str = "release-0.10.0-touring";

/// Writes the kept table; its bytes.
fn put(file: &Path, table: &str) -> Vec<u8> {
    let bytes = kept(table, "stops");
    std::fs::write(file, &bytes).unwrap();
    bytes
}

const END: &str = "end 0: all commands used\n";

/// The commands that were asked of a kept table.
fn asked(table: &str) -> Vec<Vec<u8>> {
    let mut bytes = run(&["--bytes"], kept(table, "asked")).out;
    let mut commands = Vec::new();
    while !bytes.is_empty() {
        let (_, length) = Command::read(&bytes).unwrap();
        let behind = bytes.split_off(length);
        commands.push(std::mem::replace(&mut bytes, behind));
    }
    commands
}

/// What the second program answers to the lines that were asked of a kept table: by the rule of
/// then, and by that of today.
fn second_answers(table: &str) -> [String; 2] {
    let mut book = Book::new();
    book.records(&[run(&["--bytes"], kept(table, "dump")).out]);
    let mut answers = [String::new(), String::new()];
    for command in asked(table) {
        let (command, _) = Command::read(&command).unwrap();
        let leg = match command {
            Command::List(leg) => leg,
            Command::Print => book.leg.unwrap(),
            _ => panic!("{command:?} asks for no list"),
        };
        let now = book.split_list(&leg);
        let then = renamed(&leg, &book.sites(), &now, number_alone);
        for (answers, list) in answers.iter_mut().zip([then, now]) {
            *answers += &in_words(&Record::List(list), None);
        }
    }
    answers.map(|answers| answers + END)
}

/// Asks a table of this release, with the sites and the leg of a kept one, what was asked of that:
/// it answers by today's rule, and what was answered then was by the rule of then. So what differs
/// is which of the sites that tie is named; whether it is so in some list.
fn assert_answers(file: &Path, table: &str) -> bool {
    let [then, now] = second_answers(table);
    let asked = String::from_utf8(kept(table, "asked")).unwrap();
    let answered = on(file, &["--plain"], &asked);
    assert_eq!(without_points(answered.text()), now);
    let answered_then = String::from_utf8(kept(table, "answers")).unwrap();
    assert_eq!(without_points(&answered_then), then);
    answered.text() != answered_then
}

/// Old table, dump, new table, same lists.
#[test]
fn a_table_of_release_0_7_0_is_carried_over() {
    let (old, new) = (table("of 0.7.0"), table("carried over"));
    let bytes = put(&old, OF_0_7_0);
    assert_eq!(bytes[14..16], [1, 0]);
    assert_refused(&old, 65);
    let dump = file_mode("--dump", &old);
    let told = format!(
        "stops-text: {} is of layout 1, and read as such\n",
        old.display()
    );
    assert_eq!((dump.code, &dump.err), (0, &told));
    assert_eq!(dump.out, kept(OF_0_7_0, "dump"));
    assert!(std::fs::read(&old).unwrap() == bytes);
    assert_eq!(on(&new, &["--create"], dump.text()).code, 0);
    assert!(!assert_answers(&new, OF_0_7_0));
    assert_eq!(file_mode("--dump", &new).out, dump.out);
}

/// Where --dump helps.
fn assert_refused(file: &Path, reason: u32) {
    let served = on(file, &[], "print\n");
    let told = format!(
        "stops-text: {0} is a table of an earlier release, refused with reason {reason}; --dump {0} carries it over\n",
        file.display()
    );
    assert_eq!((served.code, served.text()), (5, ""));
    assert_eq!(served.err, told);
}

/// What --dump says of a list that is right by the earlier rule alone.
fn read_by_number(file: &Path) -> String {
    format!(
        "stops-text: {} has a standing list of a release before 0.9.0, and is read as such; \
         if it is of a later one, its leg or list is damaged\n",
        file.display()
    )
}

/// Old table, dump, new table, lists by the rule of today.
#[test]
fn a_table_whose_list_the_right_hand_rule_changes_is_carried_over() {
    let (old, new) = (table("by number"), table("right first"));
    let bytes = put(&old, CHANGED);
    assert_eq!(bytes[14..16], [2, 0]);
    assert_refused(&old, 69);
    let dump = file_mode("--dump", &old);
    assert_eq!((dump.code, &dump.err), (0, &read_by_number(&old)));
    assert_eq!(dump.out, kept(CHANGED, "dump"));
    assert!(std::fs::read(&old).unwrap() == bytes);
    assert_eq!(on(&new, &["--create"], dump.text()).code, 0);
    assert!(assert_answers(&new, CHANGED));
    assert_eq!(file_mode("--dump", &new).out, dump.out);
    assert_eq!(file_mode("--dump", &new).err, "");
}

/// The leg turns round, and with it the side on which the site of the list stands. So the list is
/// the earlier rule's, and nothing tells the table from one of then.
#[test]
fn a_hit_leg_whose_list_is_that_of_an_earlier_release_is_told() {
    let file = table("hit leg");
    let adds = "add 2 3 4\nadd 5 3 -4\n";
    let lines = format!("{adds}stand 80 0 0 0\n");
    assert_eq!(on(&file, &["--create"], &lines).code, 0);
    let mut bytes = std::fs::read(&file).unwrap();
    assert_eq!(listed(&bytes), [2]);
    let easting = word(&bytes, LEG_WORDS[0]);
    put_word(&mut bytes, LEG_WORDS[0], easting ^ 0x400);
    std::fs::write(&file, &bytes).unwrap();
    assert_refused(&file, 69);
    let dump = file_mode("--dump", &file);
    assert_eq!((dump.code, &dump.err), (0, &read_by_number(&file)));
    assert_eq!(dump.text(), format!("{adds}stand -944 0 0 0\n"));
    assert!(std::fs::read(&file).unwrap() == bytes);
}

/// Neither release took it: the list is a wrong one, and the leg may be.
#[test]
fn a_list_of_an_earlier_release_and_a_tour_do_not_go_together() {
    let old = table("tour by number");
    let mut bytes = put(&old, CHANGED);
    bytes[16] = 1;
    std::fs::write(&old, &bytes).unwrap();
    let dump = file_mode("--dump", &old);
    let lines = String::from_utf8(kept(CHANGED, "dump")).unwrap();
    let (adds, stand) = lines.split_once("stand").unwrap();
    let comment =
        "# The standing list was wrong, so the leg may be. If this is the leg, take the # away:";
    let doubtful = format!("{adds}{comment}\n# stand{stand}tour -12000 -12000\n");
    assert_eq!((dump.code, dump.text()), (5, doubtful.as_str()));
    let served = on(&old, &[], "print\n");
    assert_eq!((served.code, served.text()), (5, ""));
    assert!(served.err.contains("is no sound table: reason 69, "));
    let told = file_mode("--check", &old);
    assert!(!told.text().contains("0.9.0"), "{}", told.text());
}

/// `4,160`
fn grouped(number: usize) -> String {
    match (number / 1_000, number % 1_000) {
        (0, _) => number.to_string(),
        (thousands, rest) => format!("{thousands},{rest:03}"),
    }
}

#[test]
fn a_list_of_an_earlier_release_is_told() {
    let (old, new) = (table("by number"), table("right first"));
    let bytes = put(&old, CHANGED);
    let dump = String::from_utf8(kept(CHANGED, "dump")).unwrap();
    assert_eq!(on(&new, &["--create"], &dump).code, 0);
    let mut expected = "broken: the service refuses it with reason 69\n".to_string();
    let (then, now) = (listed(&bytes), listed(&std::fs::read(&new).unwrap()));
    assert_eq!(then.len(), now.len());
    for (i, (then, now)) in then.iter().zip(&now).enumerate() {
        if then != now {
            let at = grouped(4_160 + 2 * i);
            let (then, now) = (grouped((*then).into()), grouped((*now).into()));
            expected += &format!(
                "standing list, entry {i}: not the site of the leg's list, byte {at}: {then} stands there, {now} belongs there\n"
            );
        }
    }
    expected +=
        "the standing list is that of a release before 0.9.0: --dump carries the table over\n";
    expected += "the sites, the tour and the tree keep their rules, so all sites can be read, \
                 whichever of leg and list is damaged: \
                 --dump writes the lines that lay the table out anew\n";
    let adds: Vec<&str> = dump
        .lines()
        .filter(|line| line.starts_with("add"))
        .collect();
    expected += &format!("sites that can still be read: {}\n", adds.len());
    expected += &(adds.join("\n") + "\n");
    let told = file_mode("--check", &old);
    assert_eq!((told.code, told.text()), (5, expected.as_str()));
    assert_eq!(told.err, "");
}

/// Many of its sites tie, and along other legs the right-hand rule names other ones.
#[test]
fn a_table_whose_list_the_right_hand_rule_leaves_is_taken_as_it_is() {
    let file = table("as it is");
    let bytes = put(&file, UNCHANGED);
    let written = || std::fs::metadata(&file).unwrap().modified().unwrap();
    let before = written();
    assert_eq!(bytes[14..16], [2, 0]);
    let told = file_mode("--check", &file);
    assert!(told.text().starts_with("sound: no rule is broken\n"));
    assert_eq!((told.code, told.err.as_str()), (0, ""));
    let printed = on(&file, &["--plain"], "print\n");
    let (list, _) = printed.text().split_once("end 0").unwrap();
    assert!(kept(UNCHANGED, "answers").starts_with(list.as_bytes()));
    assert!(assert_answers(&file, UNCHANGED));
    assert!(std::fs::read(&file).unwrap() == bytes && written() == before);
    let dump = file_mode("--dump", &file);
    assert_eq!((dump.code, dump.err.as_str()), (0, ""));
    assert_eq!(dump.out, kept(UNCHANGED, "dump"));
}

/// Asks a kept table of today's rules what was asked of it then, for the same answers. It has the
/// book that the second program has in the end.
fn assert_same_answers(file: &Path, table: &str) {
    let mut book = bytes::book(&kept(table, "stops"));
    let last = book.tour.and_then(|tour| tour.remembered);
    let commands = asked(table);
    let second = answers_from(last, &commands, &book.records(&commands)) + END;
    let lines = String::from_utf8(kept(table, "asked")).unwrap();
    let answered = on(file, &["--plain"], &lines);
    assert!(answered.out == kept(table, "answers"));
    assert_eq!(without_points(answered.text()), second);
    assert!(bytes::book(&std::fs::read(file).unwrap()) == book);
}

/// The bytes of a tour were kept for later, and 0.
#[test]
fn a_table_of_release_0_9_0_is_taken_as_it_is() {
    let file = table("of 0.9.0");
    let bytes = put(&file, OF_0_9_0);
    let written = || std::fs::metadata(&file).unwrap().modified().unwrap();
    let before = written();
    assert_eq!(bytes[14..16], [2, 0]);
    assert!(bytes[16..64].iter().all(|byte| *byte == 0));
    let book = bytes::book(&bytes);
    let list = book.split_list(&book.leg.unwrap());
    let by_number = renamed(&book.leg.unwrap(), &book.sites(), &list, number_alone);
    assert!(by_number != list, "another list before 0.9.0");
    let told = file_mode("--check", &file);
    assert!(told.text().starts_with("sound: no rule is broken\n"));
    assert_eq!((told.code, told.err.as_str()), (0, ""));
    assert_same_answers(&file, OF_0_9_0);
    let dump = file_mode("--dump", &file);
    assert_eq!((dump.code, dump.err.as_str()), (0, ""));
    assert_eq!(dump.out, kept(OF_0_9_0, "dump"));
    let refused = on(&file, &["--plain"], "corner 0 0\n");
    assert_eq!(
        refused.text(),
        format!("refused 8: no tour under way\n{END}")
    );
    assert!(std::fs::read(&file).unwrap() == bytes && written() == before);
    // The standing leg as a tour's has the same list.
    let lines = "print\ntour -9000 -7000\ncorner 8600 6200\n";
    let answers = on(&file, &["--plain"], lines);
    let (printed, driven) = answers.text().split_once("accepted\n").unwrap();
    assert_eq!(format!("{printed}{END}"), driven);
    let toured = std::fs::read(&file).unwrap();
    assert!(toured[..TOUR.start] == bytes[..TOUR.start] && toured[TOUR.end..] == bytes[TOUR.end..]);
    assert_ne!(toured[TOUR], bytes[TOUR]);
}

#[test]
fn a_tour_of_release_0_10_0_goes_on() {
    let file = table("touring");
    let bytes = put(&file, TOURING);
    let tour = Tour {
        corner: Position::new(3_400, 2_300),
        remembered: Some(283),
    };
    assert_eq!(bytes::tour(&bytes), Some(tour));
    let told = file_mode("--check", &file);
    assert!(told.text().starts_with("sound: no rule is broken\n"));
    assert_eq!((told.code, told.err.as_str()), (0, ""));
    let dump = file_mode("--dump", &file);
    assert_eq!((dump.code, dump.out), (0, kept(TOURING, "dump")));
    assert!(dump.err.contains("has a tour under way"), "{}", dump.err);
    assert!(std::fs::read(&file).unwrap() == bytes);
    assert_same_answers(&file, TOURING);
}

/// By number, as their releases listed.
#[test]
fn lists_in_earlier_layouts_are_by_number() {
    let (new, old) = (table("new list"), table("old list"));
    let lines = "add 2 3 4\nadd 5 3 -4\nstand 0 0 10 0\n";
    assert_eq!(on(&new, &["--create"], lines).code, 0);
    for number in [0, 1] {
        let mut bytes = aged(&std::fs::read(&new).unwrap(), number);
        assert_eq!(listed(&bytes), [5]);
        std::fs::write(&old, &bytes).unwrap();
        let dump = file_mode("--dump", &old);
        assert_eq!((dump.code, dump.text()), (5, ""));
        let told = file_mode("--check", &old);
        let what = "\nstanding list, entry 0: not the site of the leg's list, byte 4,160: 5 stands there, 2 belongs there\nsites";
        assert!(told.text().contains(what), "{}", told.text());
        bytes[4_160] = 2;
        std::fs::write(&old, &bytes).unwrap();
        assert_refused(&old, 65);
        let dump = file_mode("--dump", &old);
        assert_eq!((dump.code, dump.text()), (0, lines));
        let layout = format!(
            "{} is of layout {number}, and read as such\n",
            old.display()
        );
        assert_eq!(dump.err, format!("stops-text: {layout}"));
        let told = file_mode("--check", &old);
        assert!(!told.text().contains("standing list"), "{}", told.text());
    }
}

/// Layout 0 is layout 1 without its number. Neither is served; both are told, with their sites
/// where that layout's grid has them.
#[test]
fn tables_of_earlier_layouts_are_told_and_dumped() {
    let old = table("earlier");
    for number in [0, 1] {
        let mut bytes = kept(OF_0_7_0, "stops");
        bytes[14] = number;
        std::fs::write(&old, &bytes).unwrap();
        let told = file_mode("--check", &old);
        let adds = String::from_utf8(kept(OF_0_7_0, "dump")).unwrap();
        let adds: String = adds
            .lines()
            .filter(|line| line.starts_with("add"))
            .fold(String::new(), |all, line| all + line + "\n");
        let expected = format!(
            "broken: the service refuses it with reason 65
header: the number of an earlier layout: --dump reads such, byte 14: {number} stands there, 2 belongs there
sites that can still be read: {}
{adds}",
            adds.lines().count()
        );
        assert_eq!((told.code, told.text()), (5, expected.as_str()));
        let dump = file_mode("--dump", &old);
        assert_eq!((dump.code, dump.out), (0, kept(OF_0_7_0, "dump")));
    }
}

/// With a site on the edge of the earlier grid, without a leg, and empty; layouts 0 and 1.
#[test]
fn tables_of_every_kind_are_carried_over() {
    let many: String = (1..=60)
        .map(|n| format!("add {n} {} {}\n", 97 * n % 8_001, 8_000 - 31 * n))
        .collect();
    let leg = "stand -8000 8000 8000 -7999\n";
    for lines in [
        "",
        leg,
        "add 7 8000 -8000\n",
        "add 7 -8000 8000\nstand 0 0 0 0\n",
        &many,
        &format!("{many}{leg}"),
    ] {
        let (new, old) = (table("new kind"), table("old kind"));
        assert_eq!(on(&new, &["--create"], lines).code, 0);
        let bytes = std::fs::read(&new).unwrap();
        for number in [0, 1] {
            std::fs::write(&old, aged(&bytes, number)).unwrap();
            assert_eq!(on(&old, &[], "").code, 5);
            let dump = file_mode("--dump", &old);
            assert_eq!((dump.code, dump.text()), (0, lines));
        }
    }
}

/// All else in them is consistent, so that the grid alone speaks against them.
#[test]
fn positions_off_the_earlier_grid_are_not_dumped() {
    for lines in [
        "add 7 8001 0\n",
        "add 7 0 8001\n",
        "add 7 12000 12000\n",
        "add 7 0 0\nstand 8001 0 0 0\n",
        "add 7 0 0\nstand 0 8001 0 0\n",
        "add 7 0 0\nstand 0 0 8001 0\n",
        "add 7 0 0\nstand 0 0 0 12000\n",
    ] {
        let (new, old) = (table("new far"), table("old far"));
        assert_eq!(on(&new, &["--create"], lines).code, 0);
        let bytes = std::fs::read(&new).unwrap();
        std::fs::write(&old, aged(&bytes, 1)).unwrap();
        let dump = file_mode("--dump", &old);
        assert_eq!((dump.code, dump.text()), (5, ""), "{lines}");
        let told = file_mode("--check", &old);
        let what = "is off the grid, 0 to 16,000 from its edge";
        assert!(told.text().contains(what), "{}", told.text());
    }
}

/// Site 3 of the table of release 0.7.0 is its first record.
const FIRST_RECORD: usize = 64;

#[test]
fn a_table_that_its_own_release_refused_is_not_dumped() {
    let old = table("refused before");
    let word = |word: u16| word.to_le_bytes().to_vec();
    let whole = kept(OF_0_7_0, "stops");
    let root = 6_896 + 98 * usize::from(u16::from_le_bytes([whole[5_186], whole[5_187]]));
    let broken = [
        ("an unknown layout", 14, word(3)),
        ("a kept word", 20, word(1)),
        ("a tour, before there were any", 16, word(1)),
        (
            "an easting that only this grid has",
            FIRST_RECORD + 2,
            word(16_001),
        ),
        ("a leg off its grid", 8, word(16_001)),
        (
            "another position than the tree has",
            FIRST_RECORD + 2,
            word(0),
        ),
        ("another standing list", 4_160, word(3)),
        ("one entry of it less", 12, word(23)),
        ("a box that is too wide", root + 4, word(65_535)),
        ("a number that falls", FIRST_RECORD, word(65_535)),
    ];
    for (what, at, bytes) in broken {
        let mut table = whole.clone();
        assert_ne!(table[at..at + 2], bytes, "{what}");
        table[at..at + 2].copy_from_slice(&bytes);
        std::fs::write(&old, &table).unwrap();
        let dump = file_mode("--dump", &old);
        assert_eq!((dump.code, dump.text()), (5, ""), "{what}");
        assert!(dump.err.contains("reason 65"), "{}", dump.err);
        // What is told is more than that the layout is an earlier one, or another.
        let told = file_mode("--check", &old).text().lines().count();
        assert_eq!(
            what == "an unknown layout",
            told == 3 + usize::from(whole[0]),
            "{what}"
        );
    }
    let mut table = whole.clone();
    table[14] = 3;
    std::fs::write(&old, &table).unwrap();
    let told = file_mode("--check", &old);
    let read = "sites that can still be read, if they stand as in layout 2: 181\n";
    assert!(told.text().contains(read), "{}", told.text());
    // Its easting is told as off the grid that it has, not this one's.
    let mut table = whole.clone();
    table[FIRST_RECORD + 2..FIRST_RECORD + 4].copy_from_slice(&word(16_001));
    std::fs::write(&old, &table).unwrap();
    let told = file_mode("--check", &old);
    let what = "site record 0: the easting is off the grid, 0 to 16,000 from its edge, byte 66";
    assert!(told.text().contains(what), "{}", told.text());
    assert!(told.text().contains("sites that can still be read: 180\n"));
}
