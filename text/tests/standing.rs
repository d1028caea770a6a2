//! Tables in which the standing leg or list is wrong and nothing else: the service refuses them with
//! 69, --check says that all sites can be read, and --dump writes the lines that lay them out anew.

mod common;

use common::{answers, file_mode, line, lines, on, table, without_points};
use reference::book::Tour;
use reference::command::{self, list, print};
use reference::grid::{HALF_WIDTH, Leg, Site};
use reference::hull;
use reference::random::{self, Random};
use service::bytes::{
    self, ENTRIES_LISTED, FAR_EDGE, LEG_FLAG, LEG_WORDS, LEVELS, MOST_SITES, SITE_ARRAY, TOUR_FLAG,
    entry_at, listed, listed_at, node_at, number, put_word, record_at, word,
};
use std::path::{Path, PathBuf};

const END: &str = "end 0: all commands used\n";
const REFUSED: &str = "is no sound table: reason 69, \
                       the standing leg or list in the table is wrong, its sites can be read; ";
const READABLE: &str = "the sites, the tour and the tree keep their rules, so all sites can be \
                        read, whichever of leg and list is damaged: --dump writes the lines that \
                        lay the table out anew\n";
const MAYBE: &str =
    "# The standing list was wrong, so the leg may be. If this is the leg, take the # away:\n";

/// A byte, and the word that is put there.
type Put = (usize, u16);

fn with(table: &[u8], puts: &[Put]) -> Vec<u8> {
    let mut table = table.to_vec();
    for (at, word) in puts {
        put_word(&mut table, *at, *word);
    }
    table
}

/// The file of a new table on which these lines were carried out, and its bytes.
fn made(name: &str, lines: &str) -> (PathBuf, Vec<u8>) {
    let file = table(name);
    assert_eq!(on(&file, &["--create"], lines).code, 0);
    let bytes = std::fs::read(&file).unwrap();
    (file, bytes)
}

const NUMBERS: std::ops::RangeInclusive<u16> = 1..=60;
const UNHELD: u16 = 61;
const STAND: &str = "stand -7000 -500 8000 900\n";

/// Sites on both sides of that leg, of which no two tie along it.
fn adds() -> String {
    let nth = |n: i64| add(n, 257 * n - 7_900, (n * n * 37) % 2_003 - 1_000);
    NUMBERS.map(|number| nth(number.into())).collect()
}

fn add(number: i64, east: i64, north: i64) -> String {
    format!("add {number} {east} {north}\n")
}

/// The right list of the standing leg in these bytes, by the second program.
fn right_list(table: &[u8]) -> Vec<u16> {
    let leg = bytes::leg(table).unwrap();
    let list = hull::split_list(&leg, &bytes::sites(table));
    list.into_iter().map(|entry| entry.site).collect()
}

/// Words that make the standing leg or list of a table with those sites and that leg wrong.
fn wrong(table: &[u8]) -> Vec<Put> {
    let entries = number(table, ENTRIES_LISTED);
    assert!(entries > 10 && right_list(table) == listed(table));
    let mut wrong = Vec::new();
    for at in LEG_WORDS {
        wrong.extend([(at, FAR_EDGE + 1), (at, u16::MAX)]);
        // On the grid, with another list.
        let changes = |put: &Put| right_list(&with(table, &[*put])) != listed(table);
        let moved = [(at, 0), (at, FAR_EDGE)].into_iter().filter(changes);
        let before = wrong.len();
        wrong.extend(moved);
        assert!(wrong.len() > before);
    }
    let past = MOST_SITES + 1;
    for length in [0, 1, entries - 1, entries + 1, MOST_SITES, past, 65_535] {
        wrong.push((ENTRIES_LISTED, u16::try_from(length).unwrap()));
    }
    for (i, site) in listed(table).into_iter().enumerate() {
        let other = if site == 1 { 2 } else { 1 };
        wrong.extend([other, UNHELD, 0].map(|number| (listed_at(i), number)));
    }
    wrong
}

/// What --check and --table say of a file whose table keeps all rules but those on the standing leg
/// and list.
fn assert_told(file: &Path, adds: &str) {
    let before = std::fs::read(file).unwrap();
    let told = file_mode("--check", file);
    assert_eq!((told.code, told.err.as_str()), (5, ""));
    let (faults, sites) = told
        .text()
        .split_once(READABLE)
        .expect("the sites are read");
    let (first, faults) = faults.split_once('\n').unwrap();
    assert_eq!(first, "broken: the service refuses it with reason 69");
    let is_standing = |line: &str| line.starts_with("standing l") || line.starts_with("and ");
    assert!(
        !faults.is_empty() && faults.lines().all(is_standing),
        "{faults}"
    );
    let count = adds.lines().count();
    assert_eq!(
        sites,
        format!("sites that can still be read: {count}\n{adds}")
    );
    let served = on(file, &[], "print\nadd 999 0 0\n");
    assert_eq!((served.code, served.text()), (5, ""));
    let name = file.display();
    let hints =
        format!("--check {name} tells more, --dump {name} writes the lines that lay it out anew\n");
    assert_eq!(served.err, format!("stops-text: {name} {REFUSED}{hints}"));
    assert!(std::fs::read(file).unwrap() == before);
}

/// The lines that --dump writes for such a file.
fn dumped(file: &Path) -> String {
    let before = std::fs::read(file).unwrap();
    let dump = file_mode("--dump", file);
    let told = format!(
        "stops-text: {} {REFUSED}the lines add them all and set no standing leg\n",
        file.display()
    );
    assert_eq!(
        (dump.code, dump.err.lines().next()),
        (5, told.lines().next())
    );
    let remembers = bytes::tour(&before).is_some_and(|tour| tour.remembered.is_some());
    assert_eq!(dump.err.lines().count(), 1 + usize::from(remembers));
    assert!(std::fs::read(file).unwrap() == before);
    dump.text().into()
}

/// The table that the lines make is sound.
fn laid_out(name: &str, lines: &str) -> PathBuf {
    let (file, _) = made(name, lines);
    let told = file_mode("--check", &file);
    assert!(told.text().starts_with("sound: no rule is broken\n"));
    file
}

#[test]
fn every_field_of_the_standing_leg_and_list() {
    let adds = adds();
    let (file, sound) = made("fields", &format!("{adds}{STAND}"));
    let wrong = wrong(&sound);
    assert!(wrong.len() > 45, "{}", wrong.len());
    for put in wrong {
        let damaged = with(&sound, &[put]);
        std::fs::write(&file, &damaged).unwrap();
        assert_told(&file, &adds);
        let lines = dumped(&file);
        let (written, comments) = lines.split_at(adds.len());
        assert_eq!(written, adds);
        let words = LEG_WORDS.map(|at| word(&damaged, at));
        if words.iter().any(|word| *word > FAR_EDGE) {
            let off = "# The standing leg was off the grid: (";
            assert!(
                comments.starts_with(off) && comments.lines().count() == 1,
                "{comments}"
            );
            continue;
        }
        let [a, b, c, d] = words.map(|word| i64::from(word) - HALF_WIDTH);
        assert_eq!(comments, format!("{MAYBE}# stand {a} {b} {c} {d}\n"));
    }
}

/// Words that break a rule on layout, sites, tour or tree, one of each kind.
fn broken(table: &[u8]) -> Vec<Put> {
    let root = number(table, bytes::ROOT);
    let leaf = (1..number(table, LEVELS)).fold(root, |node, _| number(table, entry_at(node, 0)));
    assert!(root != leaf);
    vec![
        (LEG_FLAG, 2),
        (bytes::LAYOUT, 3),
        (bytes::HEADER_KEPT.start, 1),
        (bytes::SITES_HELD, 59),
        (bytes::SITES_HELD, 513),
        (SITE_ARRAY, 0),
        (record_at(5), 5),
        (record_at(5) + 2, FAR_EDGE + 1),
        (record_at(5) + 4, 0),
        (record_at(5) + 6, 1),
        (TOUR_FLAG, 2),
        (bytes::CORNER_WORDS[0], 1),
        (bytes::REMEMBERED, 1),
        (LEVELS, 1),
        (bytes::ROOT, 264),
        (bytes::FREE_NODES, 264),
        (bytes::free_at(0), 264),
        (node_at(root), 1),
        (node_at(leaf), 9),
        (entry_at(root, 0) + 2, 0),
        (entry_at(root, 0) + 10, 1),
        (entry_at(leaf, 0), UNHELD),
        (entry_at(leaf, 0) + 6, 0),
    ]
}

#[test]
fn with_another_rule_broken_it_is_65() {
    let adds = adds();
    let (file, sound) = made("both", &format!("{adds}{STAND}"));
    let (wrong, broken) = (wrong(&sound), broken(&sound));
    for (nth, put) in broken.iter().enumerate() {
        let of_standing = wrong[nth * wrong.len() / broken.len()];
        for puts in [vec![*put], vec![*put, of_standing]] {
            std::fs::write(&file, with(&sound, &puts)).unwrap();
            let told = file_mode("--check", &file);
            let first = "broken: the service refuses it with reason 65\n";
            assert!(told.code == 5 && told.text().starts_with(first), "{puts:?}");
            assert!(!told.text().contains("keep their rules"), "{}", told.text());
            for ran in [file_mode("--dump", &file), on(&file, &[], "print\n")] {
                assert_eq!((ran.code, ran.text()), (5, ""), "{puts:?}");
                assert!(
                    ran.err.contains(" is no sound table: reason 65, "),
                    "{}",
                    ran.err
                );
                assert!(!ran.err.contains("--dump"), "{}", ran.err);
            }
        }
    }
}

#[test]
fn what_is_said_of_two_sites() {
    let adds = "add 1 2 3\nadd 2 7 1\n";
    let (file, sound) = made("two", &format!("{adds}stand 0 0 10 0\n"));
    for (put, fault) in [
        (
            (listed_at(1), 3),
            "standing list, entry 1: not the site of the leg's list, byte 4,162: 3 stands there, 2 belongs there",
        ),
        (
            (ENTRIES_LISTED, 513),
            "standing list: the number of entries is not that of the leg's list, byte 12: 513 stands there, 2 belongs there",
        ),
        (
            (LEG_WORDS[2], 24_001),
            "standing leg: the easting of E is off the grid, 0 to 24,000 from its edge, byte 8: 24,001 stands there",
        ),
    ] {
        std::fs::write(&file, with(&sound, &[put])).unwrap();
        let told = file_mode("--check", &file);
        let expected = format!(
            "broken: the service refuses it with reason 69\n{fault}\n{READABLE}sites that can still be read: 2\n{adds}"
        );
        assert_eq!((told.code, told.text()), (5, expected.as_str()));
        let comments = match put.0 {
            8 => "# The standing leg was off the grid: (0, 0) to (12001, 0)\n".into(),
            _ => format!("{MAYBE}# stand 0 0 10 0\n"),
        };
        assert_eq!(dumped(&file), format!("{adds}{comments}"));
    }
}

/// Old table, dump, new table, right lists; and the standing list of the leg, if that is the leg.
#[test]
fn a_mended_table_lists_what_it_should() {
    let mut random = Random::new(151);
    let mut tours = 0;
    for nth in 0..12 {
        let mut commands = random::commands(&mut random, 300);
        commands.push(command::stand(Leg::new((-5, 3), (6, -4))));
        let file = table(&format!("damaged {nth}"));
        on(&file, &["--create"], &lines(&commands));
        let sound = std::fs::read(&file).unwrap();
        let put = match nth % 4 {
            0 => (ENTRIES_LISTED, word(&sound, ENTRIES_LISTED) + 1),
            1 => (ENTRIES_LISTED, u16::try_from(MOST_SITES).unwrap() + 1),
            2 => (listed_at(0), u16::MAX),
            _ => (listed_at(0), 0),
        };
        std::fs::write(&file, with(&sound, &[put])).unwrap();
        let mut book = bytes::book(&sound);
        // No line brings back what a tour remembers.
        book.tour = book.tour.map(|tour| Tour::begun(tour.corner));
        tours += usize::from(book.tour.is_some());
        let dump = dumped(&file);
        let leg = book.leg.take();
        let mended = laid_out(&format!("mended {nth}"), &dump);
        assert!(bytes::book(&std::fs::read(&mended).unwrap()) == book);
        let mut asked: Vec<Vec<u8>> = vec![print()];
        for _ in 0..40 {
            let mut position = || (random.between(-8, 8), random.between(-8, 8));
            asked.push(list(Leg::new(position(), position())));
        }
        let expected = answers(&asked, &book.clone().records(&asked));
        assert!(expected.starts_with("refused 7: no standing leg\nlist of "));
        let answered = on(&mended, &["--plain"], &lines(&asked));
        assert_eq!(without_points(answered.text()), expected.clone() + END);
        // A line again.
        let dump = dump.replace("\n# stand ", "\nstand ");
        let mended = laid_out(&format!("mended with leg {nth}"), &dump);
        book.leg = leg;
        assert!(bytes::book(&std::fs::read(&mended).unwrap()) == book);
        let expected = answers(&asked, &book.records(&asked));
        assert!(expected.starts_with("list of "));
        let answered = on(&mended, &["--plain"], &lines(&asked));
        assert_eq!(without_points(answered.text()), expected + END);
        assert_eq!(right_list(&sound), listed(&std::fs::read(&mended).unwrap()));
    }
    assert!(tours > 2, "{tours}");
}

#[test]
fn with_a_tour_under_way() {
    let adds = adds();
    let lines = format!("{adds}{STAND}tour 0 0\ncorner 500 -300\n");
    let (file, sound) = made("touring", &lines);
    std::fs::write(&file, with(&sound, &[(listed_at(4), UNHELD)])).unwrap();
    assert_told(&file, &adds);
    let dump = dumped(&file);
    assert_eq!(dump, format!("{adds}{MAYBE}# {STAND}tour 500 -300\n"));
    let told = file_mode("--dump", &file).err;
    assert!(
        told.ends_with("so its next list is a whole one\n"),
        "{told}"
    );
    // The next leg is listed whole, as by a leg line.
    let mended = laid_out("toured", &dump);
    let driven = on(&mended, &[], "corner -2000 100\n");
    assert_eq!(
        driven.text(),
        on(&mended, &[], "leg 500 -300 -2000 100\n").text()
    );
    assert_eq!(driven.code, 0);
}

#[test]
fn an_empty_table() {
    let (file, sound) = made("empty", "stand -12000 5 12000 0\n");
    for at in LEG_WORDS {
        for off in [FAR_EDGE + 1, u16::MAX] {
            std::fs::write(&file, with(&sound, &[(at, off)])).unwrap();
            assert_told(&file, "");
            let dump = dumped(&file);
            assert!(
                dump.starts_with("# The standing leg was off the grid: ("),
                "{dump}"
            );
            let mended = laid_out("empty again", &dump);
            assert_eq!(file_mode("--dump", &mended).text(), "");
        }
    }
    for length in [1, 512, 513, u16::MAX] {
        std::fs::write(&file, with(&sound, &[(ENTRIES_LISTED, length)])).unwrap();
        assert_told(&file, "");
        assert_eq!(dumped(&file), format!("{MAYBE}# stand -12000 5 12000 0\n"));
    }
}

#[test]
fn entries_and_no_leg() {
    let adds = adds();
    let (file, sound) = made("no leg", &adds);
    for length in [1, 512, 513, u16::MAX] {
        std::fs::write(&file, with(&sound, &[(ENTRIES_LISTED, length)])).unwrap();
        assert_told(&file, &adds);
        let comment =
            "# The standing list was wrong: it had entries, but no standing leg is set.\n";
        assert_eq!(dumped(&file), format!("{adds}{comment}"));
    }
    let mended = laid_out("no leg again", &dumped(&file));
    assert_eq!(file_mode("--dump", &mended).text(), adds);
}

/// At the edges of what a table holds: a full one, whose list names every site.
#[test]
fn a_full_table() {
    let nth = |k: i64| Site::new(u16::try_from(k).unwrap(), reference::grid::spread(k), 0);
    let adds: String = (1..=512).map(|k| line(&command::add(nth(k)))).collect();
    let stand = "stand -12000 0 12000 0\n";
    let (file, sound) = made("full", &format!("{adds}{stand}"));
    assert_eq!(listed(&sound).len(), MOST_SITES);
    let [last, before] = [511, 510].map(|i| word(&sound, listed_at(i)));
    let swapped = with(&sound, &[(listed_at(510), last), (listed_at(511), before)]);
    for damaged in [swapped, with(&sound, &[(ENTRIES_LISTED, 513)])] {
        std::fs::write(&file, &damaged).unwrap();
        assert_told(&file, &adds);
        let dump = dumped(&file);
        assert_eq!(dump, format!("{adds}{MAYBE}# {stand}"));
        let mended = laid_out("full again", &dump.replace("\n# stand", "\nstand"));
        let mended = std::fs::read(&mended).unwrap();
        assert_eq!(listed(&mended), listed(&sound));
    }
}
