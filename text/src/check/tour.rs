//! The tour: its last corner, and the site that it remembers.

use super::fault::{Fault, off_grid};
use binding::layout::{CORNER_WORDS, REMEMBERED, TOUR_FLAG, far_edge, is_earlier, records, word};

const WORDS: [&str; 2] = ["easting of the last corner", "northing of the last corner"];

pub fn faults(table: &[u8]) -> Vec<Fault> {
    // There these words are kept for later.
    if is_earlier(table) {
        return Vec::new();
    }
    match word(table, TOUR_FLAG) {
        0 => set_without_tour(table),
        1 => faults_under_way(table),
        _ => {
            let what = "1 while a tour is under way, else 0";
            vec![Fault::at(table, TOUR_FLAG, "tour", what)]
        }
    }
}

fn set_without_tour(table: &[u8]) -> Vec<Fault> {
    let corner = CORNER_WORDS.into_iter().zip(WORDS);
    let words = corner.chain([(REMEMBERED, "remembered site")]);
    let set = words.filter(|(at, _)| word(table, *at) != 0);
    let fault = |(at, name)| {
        let what = format!("none is under way, but its {name} is set");
        Fault::at(table, at, "tour", what).belongs(0u16)
    };
    set.map(fault).collect()
}

fn faults_under_way(table: &[u8]) -> Vec<Fault> {
    let mut faults = Vec::new();
    for (at, name) in CORNER_WORDS.into_iter().zip(WORDS) {
        if word(table, at) > far_edge(table) {
            faults.push(Fault::at(table, at, "tour", off_grid(table, name)));
        }
    }
    let remembered = word(table, REMEMBERED);
    if remembered != 0 && !records(table).any(|record| record.number == remembered) {
        let what = "the remembered site is not held";
        faults.push(Fault::at(table, REMEMBERED, "tour", what));
    }
    faults
}
