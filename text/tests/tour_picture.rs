//! The picture of a tour: all its legs from corner to corner, with a mark where the nearest site
//! changes.

mod common;
#[path = "common/drawn.rs"]
mod drawn;
#[path = "common/svg.rs"]
mod svg;

use common::{on, scratch, table};
use drawn::{assert_neat, colours, drawn, noted};
use reference::layout::{LAYOUTS, case};
use reference::random::Random;
use svg::{Element, Picture};

fn picture(name: &str, input: &str) -> Picture {
    let picture = svg::read(&drawn(name, &[], input));
    assert_neat(&picture);
    picture
}

/// Four sites at the corners of a square, and three legs along its sides.
const SITES: &str = "add 1 0 0\nadd 2 100 0\nadd 3 100 100\nadd 4 0 100\n";
const TOUR: &str = "tour 10 0\ncorner 90 0\ncorner 90 100\ncorner 10 100\n";

fn ends(line: &Element) -> [f64; 4] {
    ["x1", "y1", "x2", "y2"].map(|name| line.number(name))
}

fn near(a: f64, b: f64) -> bool {
    (a - b).abs() < 0.02
}

#[test]
fn three_legs() {
    let picture = picture("three", &format!("{SITES}{TOUR}"));
    assert_eq!(
        picture.title,
        "Tour (10, 0) to (10, 100): 3 legs, 4 stretches, 4 sites"
    );
    assert_eq!(picture.texts("notes"), [""; 0]);
    let mut labels = picture.texts("labels");
    labels.sort_unstable();
    assert_eq!(
        labels,
        [
            "1",
            "1/2",
            "1/2",
            "1/2",
            "2",
            "3",
            "4",
            "C1 (90, 0)",
            "C2 (90, 100)",
            "E (10, 100)",
            "S (10, 0)"
        ]
    );
    let legend = picture.texts("legend");
    assert_eq!(
        legend[..4],
        [
            "site 1 from 0/1 of leg 1",
            "site 2 from 1/2 of leg 1",
            "site 3 from 1/2 of leg 2",
            "site 4 from 1/2 of leg 3",
        ]
    );
    for key in [
        "S, where the tour starts",
        "C1, C2 and so on: its corners",
        "E, its last corner",
    ] {
        assert!(legend.contains(&key), "{legend:?}");
    }
    // Two stretches a leg, each beginning where the one before ends, over the corners too.
    let stretches = picture.of_class("stretches");
    assert_eq!(stretches.len(), 6);
    for pair in stretches.windows(2) {
        let ([_, _, x, y], [from_x, from_y, ..]) = (ends(pair[0]), ends(pair[1]));
        assert!(near(x, from_x) && near(y, from_y));
    }
    // The legs are straight, up and across, and as long as on the grid.
    let lengths: Vec<f64> = stretches
        .chunks(2)
        .map(|leg| {
            let ([x1, y1, ..], [_, _, x2, y2]) = (ends(leg[0]), ends(leg[1]));
            (x2 - x1).abs() + (y2 - y1).abs()
        })
        .collect();
    assert!((lengths[1] / lengths[0] - 100.0 / 80.0).abs() < 1e-3);
    assert!((lengths[2] / lengths[0] - 1.0).abs() < 1e-3);
    // A site has one colour wherever it is nearest.
    let colours = colours(&picture);
    assert_eq!(
        [&colours[1], &colours[3]],
        [&colours[2], &colours[4]],
        "over the corners"
    );
    let dots = picture.of_class("sites");
    let fills: Vec<&String> = dots.iter().map(|dot| &dot.attributes["fill"]).collect();
    assert_eq!(fills, [&colours[0], &colours[1], &colours[3], &colours[5]]);
    assert_eq!(picture.of_class("breakpoints").len(), 3);
    assert_eq!(picture.of_class("corners").len(), 2);
    assert_eq!(picture.of_class("ends").len(), 2);
}

/// Where the leg before ends as near to one as to the other.
#[test]
fn a_change_at_a_corner_is_marked() {
    let picture = picture(
        "corner",
        "add 1 0 0\nadd 2 100 0\ntour 0 0\ncorner 50 0\ncorner 100 0\n",
    );
    assert_eq!(
        picture.title,
        "Tour (0, 0) to (100, 0): 2 legs, 2 stretches, 2 sites"
    );
    let legend = picture.texts("legend");
    assert_eq!(
        legend[..2],
        ["site 1 from 0/1 of leg 1", "site 2 from 0/1 of leg 2"]
    );
    let marks = picture.of_class("breakpoints");
    let corner = picture.of_class("corners")[0].extent();
    assert_eq!(marks.len(), 1);
    assert!(near(marks[0].number("x1"), (corner[0] + corner[2]) / 2.0));
    assert!(picture.texts("labels").contains(&"0/1"));
}

#[test]
fn there_and_back_and_one_place() {
    let sites = "add 1 2 3\nadd 2 7 1\n";
    let back = picture(
        "back",
        &format!("{sites}tour 0 0\ncorner 10 0\ncorner 10 0\ncorner 0 0\n"),
    );
    assert_eq!(
        back.title,
        "Tour (0, 0) to (0, 0): 3 legs, 3 stretches, 2 sites"
    );
    assert!(back.texts("labels").contains(&"S = E (0, 0)"));
    // On the same spot, and each a fraction of its leg.
    let marks = back.of_class("breakpoints");
    assert!(marks.len() == 2 && near(marks[0].number("x1"), marks[1].number("x1")));
    let labels = back.texts("labels");
    assert!(labels.contains(&"37/100") && labels.contains(&"63/100"));
    // The same colours on the way back, from the other end.
    let there = colours(&back);
    assert_eq!(
        there,
        [
            there[0].clone(),
            there[1].clone(),
            there[1].clone(),
            there[1].clone(),
            there[0].clone()
        ]
    );
    let place = picture("place", &format!("{sites}tour 5 5\ncorner 5 5\n"));
    assert_eq!(
        place.title,
        "Tour (5, 5) to (5, 5): 1 leg, 1 stretch, 2 sites"
    );
    assert_eq!(place.of_class("stretches")[0].name, "circle");
    assert_eq!(place.of_class("corners").len(), 0);
}

#[test]
fn what_was_asked_last_is_drawn() {
    let title = |lines: &str| picture("last", &format!("{SITES}{lines}")).title;
    let tour = "Tour (10, 0) to (10, 100): 3 legs, 4 stretches, 4 sites";
    assert_eq!(title(TOUR), tour);
    let leg = "Leg (0, 0) to (9, 0): 1 stretch, 4 sites";
    assert_eq!(title(&format!("{TOUR}leg 0 0 9 0\n")), leg);
    // The tour goes on, whole.
    let on = "Tour (10, 0) to (10, 0): 4 legs, 5 stretches, 4 sites";
    assert_eq!(title(&format!("{TOUR}leg 0 0 9 0\ncorner 10 0\n")), on);
    assert_eq!(title(&format!("leg 0 0 9 0\n{TOUR}stand 1 1 2 2\n")), tour);
    // A tour counts from its first leg on.
    assert_eq!(title(&format!("{TOUR}tour 5 5\n")), tour);
    assert_eq!(title("leg 0 0 9 0\ntour 5 5\n"), leg);
    assert_eq!(title("tour 5 5\n"), "4 sites, no leg");
    let anew = "Tour (5, 5) to (0, 0): 1 leg, 1 stretch, 4 sites";
    assert_eq!(title(&format!("{TOUR}tour 5 5\ncorner 0 0\n")), anew);
    // What is refused is no part of it.
    assert_eq!(title(&format!("{TOUR}corner 0 12001\n")), tour);
    assert_eq!(title(&format!("{TOUR}remove 9\ncorner 10 0\n")), on);
}

/// As with a leg: the sites are those after the last line, though the tour has ended.
#[test]
fn the_lists_are_those_of_the_table_after_the_last_line() {
    let picture = picture("after", &format!("{SITES}{TOUR}remove 3\ncorner 0 0\n"));
    assert_eq!(
        picture.title,
        "Tour (10, 0) to (10, 100): 3 legs, 3 stretches, 3 sites"
    );
}

#[test]
fn in_another_run_it_begins_at_the_corner_found() {
    let (file, out) = (table("picture"), scratch("run.svg"));
    on(&file, &["--create"], &format!("{SITES}{TOUR}"));
    let drawn = |lines: &str| {
        let _ = std::fs::remove_file(&out);
        let ran = on(&file, &["--svg", out.to_str().unwrap()], lines);
        assert_eq!((ran.code, ran.err.as_str()), (0, ""));
        svg::read(&std::fs::read_to_string(&out).unwrap()).title
    };
    assert_eq!(drawn(""), "4 sites, no leg");
    let legs = "Tour (10, 100) to (90, 0): 2 legs, 3 stretches, 4 sites";
    assert_eq!(drawn("corner 10 0\ncorner 90 0\n"), legs);
}

/// Random tours among the sites.
#[test]
fn every_layout_of_sites() {
    let mut random = Random::new(321);
    for layout in LAYOUTS {
        for count in [1, 7, 60, 300] {
            let case = case(&mut random, layout, count);
            let mut input = String::new();
            for site in &case.sites {
                let at = site.position;
                input += &format!("add {} {} {}\n", site.number, at.east, at.north);
            }
            let sites = case.sites.iter().map(|site| site.position);
            let spots: Vec<_> = sites.chain([case.leg.s, case.leg.e]).collect();
            let first = random.pick(&spots);
            input += &format!("tour {} {}\n", first.east, first.north);
            let legs = 1 + random.index(12);
            for _ in 0..legs {
                let next = random.pick(&spots);
                input += &format!("corner {} {}\n", next.east, next.north);
            }
            let picture = picture("layouts", &input);
            let s = if legs == 1 { "" } else { "s" };
            assert!(
                picture.title.contains(&format!(": {legs} leg{s}, ")),
                "{}",
                picture.title
            );
            assert_eq!(picture.of_class("corners").len(), legs - 1);
            let shown = picture.of_class("sites").len();
            let outside = noted(&picture, "outside the picture").unwrap_or(0);
            assert_eq!(shown + outside, count);
            assert_reaches(&picture);
        }
    }
}

/// Each stretch is tinted towards a site of its colour, and where the site changes the colour does.
fn assert_reaches(picture: &Picture) {
    let (reaches, colours) = (picture.of_class("reaches"), colours(picture));
    assert_eq!(reaches.len(), colours.len());
    let site = |reach: &Element| {
        reach.attributes["points"]
            .split(' ')
            .next()
            .unwrap()
            .to_string()
    };
    let dots = picture.of_class("sites");
    for (reach, colour) in reaches.iter().zip(&colours) {
        assert_eq!(&reach.attributes["fill"], colour);
        let at = site(reach);
        let there = |dot: &&&Element| {
            let (x, y) = (dot.number("cx"), dot.number("cy"));
            at == format!("{x:.2},{y:.2}")
        };
        let mut dots = dots.iter().filter(there);
        assert!(dots.any(|dot| &dot.attributes["fill"] == colour));
    }
    for i in 1..reaches.len() {
        let changed = site(reaches[i - 1]) != site(reaches[i]);
        assert_eq!(changed, colours[i - 1] != colours[i]);
    }
}
