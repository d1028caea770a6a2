//! docs/LAYOUT.md and the crate that reads tables have the same numbers; work buffer and grid are
//! there, in docs/PROTOCOL.md and in the manual pages what the header says.

use reference::grid::LARGEST_DENOMINATOR;
use service::bytes::{
    CORNER_WORDS, ENTRIES_LISTED, FAR_EDGE, FREE_NODES, HALF_WIDTH, HEADER_KEPT, LAYOUT,
    LAYOUT_NUMBER, LEG_FLAG, LEG_WORDS, LEVELS, MOST_NODES, MOST_SITES, NODE_LEN, NODE_POOL,
    RECORD_LEN, REMEMBERED, ROOT, SITE_ARRAY, SITES_HELD, STACK, STACK_END, STANDING_LIST,
    TABLE_LEN, TOUR_FLAG, WORK_LEN,
};
use std::path::Path;

fn at_root(name: &str) -> String {
    let root = Path::new(env!("CARGO_MANIFEST_DIR")).join("../..");
    std::fs::read_to_string(root.join(name)).unwrap()
}

fn read(name: &str) -> String {
    at_root(&format!("docs/{name}"))
}

/// What docs/LAYOUT.md says of the table, and of the work buffer.
fn parts() -> [String; 2] {
    let text = read("LAYOUT.md");
    let (table, work) = text.split_once("## The work buffer, by phase").unwrap();
    [table, work].map(String::from)
}

fn text() -> String {
    let [table, _] = parts();
    table
}

fn number(text: &str) -> Option<usize> {
    text.trim().replace(',', "").parse().ok()
}

/// The first and the last byte.
fn span(cell: &str) -> Option<(usize, usize)> {
    let (from, to) = cell.split_once(" to ")?;
    Some((number(from)?, number(to)?))
}

/// The cells of each row whose first cell this takes.
fn rows<T>(text: &str, first: impl Fn(&str) -> Option<T>) -> Vec<(T, Vec<&str>)> {
    let cells = |line: &str| -> Option<T> { first(line.split('|').nth(1)?.trim()) };
    let row = |line| Some((cells(line)?, str::split(line, '|').map(str::trim).collect()));
    text.lines().filter_map(row).collect()
}

#[test]
fn the_regions_follow_each_other_and_begin_where_the_code_reads() {
    let text = text();
    let regions = rows(&text, span);
    let mut next = 0;
    for ((from, to), cells) in &regions {
        assert_eq!((*from, to + 1 - from), (next, number(cells[2]).unwrap()));
        next = to + 1;
    }
    assert_eq!(next, TABLE_LEN);
    let starts: Vec<usize> = regions.iter().map(|((from, _), _)| *from).collect();
    let read = [
        0,
        SITE_ARRAY,
        STANDING_LIST,
        LEVELS,
        STACK,
        STACK_END,
        NODE_POOL,
    ];
    assert_eq!(starts, read);
}

#[test]
fn the_words_stand_where_the_code_reads_them() {
    let text = text();
    let words = rows(&text, number);
    let at = |meaning: &str| {
        let found = words
            .iter()
            .find(|(_, cells)| cells[3].starts_with(meaning));
        found.unwrap_or_else(|| panic!("{meaning}")).0
    };
    assert_eq!(at("number of sites held"), SITES_HELD);
    assert_eq!(at("1 where a standing leg is set"), LEG_FLAG);
    let leg = [
        "easting of S",
        "northing of S",
        "easting of E",
        "northing of E",
    ];
    assert_eq!(leg.map(at), LEG_WORDS);
    assert_eq!(at("number of entries of the standing list"), ENTRIES_LISTED);
    assert_eq!(at("number of the layout"), LAYOUT);
    assert_eq!(at("1 while a tour is under way"), TOUR_FLAG);
    let corner = [
        "easting of the tour's last corner",
        "northing of the tour's last corner",
    ];
    assert_eq!(corner.map(at), CORNER_WORDS);
    assert_eq!(
        at("number of the site that is remembered in the tour"),
        REMEMBERED
    );
    assert_eq!(at("kept for later"), HEADER_KEPT.start);
    assert_eq!(at("number of levels"), LEVELS);
    assert_eq!(at("id of the root node"), ROOT);
    assert_eq!(at("number of free nodes"), FREE_NODES);
    assert_eq!(at("ids of the free nodes"), STACK);
    let (record, node) = (
        format!("Record k stands at byte {SITE_ARRAY} + {RECORD_LEN}k"),
        format!("Node n stands at byte 6,896 + {NODE_LEN}n"),
    );
    assert!(text.contains(&record) && text.contains(&node));
    assert_eq!(NODE_POOL, 6_896);
}

#[test]
fn the_last_layout_listed_is_the_one_that_the_code_writes() {
    let text = text();
    let (_, listed) = text.split_once("## Layout numbers").unwrap();
    let (listed, _) = listed.split_once("\n## ").unwrap();
    let numbers: Vec<usize> = rows(listed, number).iter().map(|(n, _)| *n).collect();
    let last = usize::from(LAYOUT_NUMBER);
    assert_eq!(numbers, (0..=last).collect::<Vec<_>>());
    assert!(text.contains(&format!(
        "then {last} to the word at {LAYOUT}, 264 to the word at 5,188"
    )));
}

/// Behind the marks.
const HINTS: usize = 1_024;

#[test]
fn each_phase_fills_the_work_buffer() {
    let [_, text] = parts();
    let (mut phases, mut next): (Vec<Vec<usize>>, usize) = (Vec::new(), 0);
    for (phase, cells) in rows(&text, |cell| Some(cell.to_string())) {
        let Some((from, to)) = span(cells[2]) else {
            continue;
        };
        if !phase.is_empty() {
            phases.push(Vec::new());
            next = 0;
        }
        assert_eq!((from, to + 1 - from), (next, number(cells[3]).unwrap()));
        next = to + 1;
        let phase = phases.last_mut().unwrap();
        phase.push(next);
    }
    let marks = MOST_NODES + MOST_SITES;
    let ends = [
        vec![MOST_NODES, marks, marks + HINTS, WORK_LEN],
        vec![2 * MOST_SITES, WORK_LEN],
        vec![WORK_LEN],
    ];
    assert_eq!(phases, ends);
}

#[test]
fn the_protocol_asks_for_the_same_work_buffer() {
    let protocol = read("PROTOCOL.md");
    let (_, asked) = protocol.split_once("a work buffer of ").unwrap();
    let (asked, _) = asked.split_once(" bytes").unwrap();
    assert_eq!(number(asked), Some(WORK_LEN));
}

/// `12,000`
fn grouped(number: i64) -> String {
    let digits = number.to_string();
    let (head, tail) = digits.split_at((digits.len() - 1) % 3 + 1);
    let thousands = tail.as_bytes().chunks(3).map(|three| {
        let three = std::str::from_utf8(three).expect("digits");
        format!(",{three}")
    });
    thousands.fold(head.to_string(), |all, part| all + &part)
}

#[test]
fn the_grid_is_as_wide_as_the_header_says() {
    let most = grouped(HALF_WIDTH.into());
    let far = grouped(FAR_EDGE.into());
    let denominator = grouped(LARGEST_DENOMINATOR.cast_signed());
    let protocol = read("PROTOCOL.md");
    for said in [
        format!("a whole number from -{most} to {most}, "),
        format!("| 2 | a coordinate is below -{most} or above {most} |"),
        format!("no denominator is above {denominator}."),
    ] {
        assert!(protocol.contains(&said), "{said}");
    }
    let layout = text();
    for said in [
        format!("0 to {far}: the signed number of a command plus {most}."),
        format!("| 2 | 2 | easting | at most {far} |"),
        format!("| 4 | 2 | northing | at most {far} |"),
    ] {
        assert!(layout.contains(&said), "{said}");
    }
    let manual = at_root("package/stops.1");
    assert!(manual.contains(&format!("from \\-{HALF_WIDTH} to {HALF_WIDTH};")));
    let help = at_root("text/src/help.txt");
    assert!(help.contains(&format!(
        " -{HALF_WIDTH} to {HALF_WIDTH}, in steps of 100 m"
    )));
}
