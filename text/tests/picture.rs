//! The picture: well-formed, inside its view box, and true to the list and the table.

mod common;
#[path = "common/drawn.rs"]
mod drawn;
#[path = "common/svg.rs"]
mod svg;

use common::{HALF_WIDTH, OFF_GRID, PROGRAM, at_root, lines, scratch};
use drawn::{assert_neat, colours, drawn, noted};
use reference::book::Book;
use reference::command;
use reference::grid::{Leg, Site, spread};
use reference::layout::{LAYOUTS, case};
use reference::random::Random;
use std::process::{Command, Stdio};
use svg::Picture;

fn picture(name: &str, options: &[&str], input: &str) -> Picture {
    let picture = svg::read(&drawn(name, options, input));
    assert_neat(&picture);
    assert_neighbours_differ(&picture);
    picture
}

fn assert_neighbours_differ(picture: &Picture) {
    for pair in colours(picture).windows(2) {
        assert_ne!(pair[0], pair[1]);
    }
}

fn adds(sites: &[Site]) -> String {
    let commands: Vec<Vec<u8>> = sites.iter().map(|site| command::add(*site)).collect();
    lines(&commands)
}

fn leg_line(leg: Leg) -> String {
    common::line(&command::list(leg))
}

#[test]
fn every_layout_of_sites_and_sizes() {
    let mut random = Random::new(101);
    for layout in LAYOUTS {
        for count in [0, 1, 2, 7, 40, 200, 512] {
            let case = case(&mut random, layout, count);
            let list = Book::of(&case.sites, None).split_list(&case.leg);
            let input = adds(&case.sites) + &leg_line(case.leg);
            let options: &[&str] =
                random.pick(&[&[][..], &["--boxes"], &["--boxes", "--whole-grid"]]);
            let picture = picture("layouts", options, &input);
            assert_eq!(colours(&picture).len(), list.len());
            let shown = picture.of_class("sites").len();
            let outside = noted(&picture, "outside the picture").unwrap_or(0);
            assert_eq!(shown + outside, count, "{layout:?}");
            assert!(shown >= list.len());
            let numbered = noted(&picture, "have their number").unwrap_or(shown);
            let fractions = list.len().saturating_sub(1);
            let fractions = noted(&picture, "have their fraction").unwrap_or(fractions);
            let labels = picture.texts("labels");
            let ends = labels.iter().filter(|label| label.contains('(')).count();
            assert_eq!(labels.len(), numbered + fractions + ends);
        }
    }
}

#[test]
fn the_example_of_document_01() {
    let picture = picture("example", &[], "add 1 2 3\nadd 2 7 1\nleg 0 0 10 0\n");
    assert_eq!(picture.title, "Leg (0, 0) to (10, 0): 2 stretches, 2 sites");
    assert_eq!(picture.texts("notes"), [""; 0]);
    let mut labels = picture.texts("labels");
    labels.sort_unstable();
    assert_eq!(labels, ["1", "2", "37/100", "E (10, 0)", "S (0, 0)"]);
    let legend = picture.texts("legend");
    assert_eq!(legend[..2], ["site 1 from 0/1", "site 2 from 37/100"]);
    // The breakpoint stands at 37 hundredths of the way on paper too.
    let stretches = picture.of_class("stretches");
    let length = |i: usize| stretches[i].number("x2") - stretches[i].number("x1");
    let part = length(0) / (length(0) + length(1));
    assert!((part - 0.37).abs() < 1e-3, "{part}");
    assert_eq!(picture.of_class("breakpoints").len(), 1);
    // Each listed site has its stretch's colour.
    let fill = |i: usize| picture.of_class("sites")[i].attributes["fill"].clone();
    assert_eq!(colours(&picture), [fill(0), fill(1)]);
    assert!(
        picture
            .texts("east-axis")
            .contains(&"easting, in steps of 100 m")
    );
    assert!(
        picture
            .texts("north-axis")
            .contains(&"northing, in steps of 100 m")
    );
}

/// Of two that tie, the one on the right is listed, and drawn over the others.
#[test]
fn of_a_tie_the_listed_site_has_the_colour() {
    let sites = "add 2 3 1\nadd 5 3 -1\n";
    for (leg, listed) in [("leg 0 0 10 0\n", 5), ("leg 10 0 0 0\n", 2)] {
        let picture = picture("tie", &[], &format!("{sites}{leg}"));
        let first = format!("site {listed} from 0/1");
        assert_eq!(picture.texts("legend")[0], first);
        let dots = picture.of_class("sites");
        assert_eq!(colours(&picture), [dots[1].attributes["fill"].clone()]);
        // North is up.
        let is_south = dots[1].number("cy") > dots[0].number("cy");
        assert_eq!(is_south, listed == 5);
    }
}

#[test]
fn sites_stand_where_the_axes_say() {
    let picture = picture("axes", &[], "add 1 -20 -10\nadd 2 40 10\n");
    let dots = picture.of_class("sites");
    let middle = |text: &str, class: &str| {
        let of_class = picture.of_class(class);
        let tick = of_class.into_iter().find(|tick| tick.text == text).unwrap();
        (tick.number("x"), tick.number("y") - 4.0)
    };
    assert!((dots[0].number("cx") - middle("-20", "east-axis").0).abs() < 0.02);
    assert!((dots[1].number("cx") - middle("40", "east-axis").0).abs() < 0.02);
    assert!((dots[0].number("cy") - middle("-10", "north-axis").1).abs() < 0.02);
    assert!((dots[1].number("cy") - middle("10", "north-axis").1).abs() < 0.02);
}

#[test]
fn which_leg() {
    let title = |input: &str| picture("leg", &[], input).title;
    assert_eq!(title(""), "0 sites, no leg");
    assert_eq!(title("add 1 0 0\n"), "1 site, no leg");
    let stand = "add 1 0 0\nstand 0 0 5 5\n";
    assert_eq!(title(stand), "Leg (0, 0) to (5, 5): 1 stretch, 1 site");
    let asked = format!("leg 0 0 7 0\nleg 0 1 8 0\n{stand}");
    assert_eq!(title(&asked), "Leg (0, 1) to (8, 0): 1 stretch, 1 site");
    let off = format!("{asked}leg 0 0 {OFF_GRID} 0\nstand {OFF_GRID} 0 0 0\n");
    assert_eq!(title(&off), "Leg (0, 1) to (8, 0): 1 stretch, 1 site");
    let emptied = format!("{asked}remove 1\n");
    assert_eq!(
        title(&emptied),
        "Leg (0, 1) to (8, 0): 0 stretches, 0 sites"
    );
}

#[test]
fn the_list_is_that_of_the_table_after_the_last_line() {
    let input = "add 1 2 3\nadd 2 7 1\nleg 0 0 10 0\nremove 2\n";
    let picture = picture("after", &[], input);
    assert_eq!(picture.title, "Leg (0, 0) to (10, 0): 1 stretch, 1 site");
    assert_eq!(colours(&picture).len(), 1);
}

#[test]
fn a_leg_that_is_a_point_and_legs_along_the_edge() {
    let point = picture("point", &[], "add 7 4 5\nadd 3 5 4\nleg 4 4 4 4\n");
    assert_eq!(colours(&point).len(), 1);
    assert!(point.texts("labels").contains(&"S = E (4, 4)"));
    assert_eq!(noted(&point, "off the grid"), None);
    let h = HALF_WIDTH;
    for ends in [
        format!("-{h} {h} {h} {h}"),
        format!("{h} -{h} {h} {h}"),
        format!("-{h} -{h} {} -{h}", 10 - h),
    ] {
        let edge = picture(
            "edge",
            &[],
            &format!("add 1 -{h} {h}\nadd 2 {h} {h}\nleg {ends}\n"),
        );
        assert!(edge.texts("legend").contains(&"off the grid"));
    }
}

#[test]
fn boxes_are_counted_and_drawn() {
    let sites: Vec<Site> = (1..=9)
        .map(|n| Site::new(n, i64::from(n) * 10, i64::from(n % 3)))
        .collect();
    let input = adds(&sites) + "leg 0 0 100 0\n";
    let with = picture("boxes", &["--boxes", "--whole-grid"], &input);
    let boxes = noted(&with, "tree boxes, level 1 from the root: 2");
    assert_eq!(boxes, Some(1));
    assert_eq!(with.of_class("boxes").len(), 2 * 4);
    assert!(picture("unboxed", &[], &input).of_class("boxes").is_empty());
    let few = picture("few", &["--boxes"], "add 1 0 0\n");
    assert_eq!(
        few.texts("notes"),
        ["The tree has no boxes: its root is a leaf, or it is empty."]
    );
}

#[test]
fn many_entries() {
    let sites: Vec<Site> = (1..=512)
        .map(|n| Site::new(n, spread(n.into()), 0))
        .collect();
    let input = adds(&sites) + &format!("leg -{HALF_WIDTH} 0 {HALF_WIDTH} 0\n");
    let picture = picture("many", &[], &input);
    assert_eq!(colours(&picture).len(), 512);
    assert_eq!(
        noted(&picture, "of 512 stretches stand above, 496 do not"),
        Some(16)
    );
    let marks = picture.of_class("breakpoints").len();
    assert_eq!(
        noted(&picture, "of 511 breakpoints have a mark"),
        Some(marks)
    );
    let fractions = picture
        .texts("labels")
        .iter()
        .filter(|label| label.contains('/'))
        .count();
    assert!(fractions > 10);
    assert_eq!(
        noted(&picture, "of 511 breakpoints have their fraction"),
        Some(fractions)
    );
}

#[test]
fn the_committed_picture_is_what_the_program_draws() {
    let tour = std::fs::read_to_string(at_root("examples/tour.txt")).unwrap();
    let committed = std::fs::read_to_string(at_root("docs/tour.svg")).unwrap();
    assert!(
        drawn("tour", &[], &tour) == committed,
        "draw docs/tour.svg anew"
    );
    svg::read(&committed);
}

#[test]
fn a_closed_pipe_does_not_cost_the_picture() {
    let file = scratch("closed.svg");
    let _ = std::fs::remove_file(&file);
    let input = scratch("closed.txt");
    // The last lines come long after the pipe is closed.
    let legs = "leg 0 0 1 1\n".repeat(50_000);
    let lines = format!("add 1 0 0\n{legs}add 2 9 9\nleg 0 0 9 9\n");
    std::fs::write(&input, lines).unwrap();
    let mut child = Command::new(PROGRAM)
        .arg("--svg")
        .args([&file, &input])
        .stdout(Stdio::piped())
        .stderr(Stdio::piped())
        .spawn()
        .unwrap();
    drop(child.stdout.take());
    let output = child.wait_with_output().unwrap();
    assert_eq!((output.status.code(), output.stderr), (Some(0), vec![]));
    let drawn = svg::read(&std::fs::read_to_string(&file).unwrap());
    assert_eq!(drawn.title, "Leg (0, 0) to (9, 9): 2 stretches, 2 sites");
}

/// Neighbours in a row keep a character apart, so that no two numbers read as one.
#[test]
fn a_narrow_grid_of_sites_keeps_its_labels_apart() {
    let mut input = String::new();
    for number in 0..22 * 22 {
        input += &format!(
            "add {} {} {}\n",
            number + 1,
            10 * (number % 22),
            10 * (number / 22)
        );
    }
    for (name, leg) in [("narrow", "leg 0 0 210 210\n"), ("narrow without", "")] {
        let picture = picture(name, &[], &format!("{input}{leg}"));
        let labels: Vec<[f64; 4]> = picture
            .of_class("labels")
            .iter()
            .map(|e| e.extent())
            .collect();
        assert!(labels.len() >= 60, "{}", labels.len());
        for (i, a) in labels.iter().enumerate() {
            for b in &labels[..i] {
                let beside = a[1] < b[3] && b[1] < a[3];
                let between = (a[0] - b[2]).max(b[0] - a[2]);
                assert!(!beside || between >= 6.0, "{a:?} {b:?}");
            }
        }
    }
}
