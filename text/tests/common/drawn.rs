//! Pictures that the program draws, and what all of them have to be.
#![allow(dead_code)] // Each test file uses its part.

use crate::common::{PROGRAM, run_program, scratch};
use crate::svg::{Element, Picture};
use std::process::Command;

/// The picture's text.
pub fn drawn(name: &str, options: &[&str], input: &str) -> String {
    let file = scratch(&format!("{name}.svg"));
    let mut program = Command::new(PROGRAM);
    program.arg("--svg").arg(&file).args(options);
    let ran = run_program(&mut program, input.as_bytes());
    assert!(ran.code <= 1, "{}", ran.err);
    std::fs::read_to_string(&file).unwrap()
}

/// All is inside, and the labels keep apart.
pub fn assert_neat(picture: &Picture) {
    assert_inside(picture);
    assert_labels_apart(picture);
}

fn assert_inside(picture: &Picture) {
    assert_eq!(picture.width, 800.0);
    for element in &picture.elements {
        let [left, top, right, bottom] = element.extent();
        let inside =
            left >= 0.0 && top >= 0.0 && right <= picture.width && bottom <= picture.height;
        assert!(inside, "{element:?}");
    }
}

fn assert_labels_apart(picture: &Picture) {
    let extents: Vec<[f64; 4]> = picture
        .of_class("labels")
        .iter()
        .map(|e| e.extent())
        .collect();
    for (i, a) in extents.iter().enumerate() {
        for b in &extents[..i] {
            let apart = a[2] <= b[0] || b[2] <= a[0] || a[3] <= b[1] || b[3] <= a[1];
            assert!(apart, "{a:?} {b:?}");
        }
    }
}

/// Of the stretches, in turn.
pub fn colours(picture: &Picture) -> Vec<String> {
    let colour = |element: &&Element| {
        let paint = if element.name == "line" {
            "stroke"
        } else {
            "fill"
        };
        element.attributes[paint].clone()
    };
    picture.of_class("stretches").iter().map(colour).collect()
}

/// The first number in the note or key with these words; none where it is missing.
pub fn noted(picture: &Picture, words: &str) -> Option<usize> {
    let texts = [picture.texts("notes"), picture.texts("legend")].concat();
    let note = texts.into_iter().find(|text| text.contains(words))?;
    let digits = note
        .split(|c: char| !c.is_ascii_digit())
        .find(|part| !part.is_empty());
    Some(digits.unwrap().parse().unwrap())
}
