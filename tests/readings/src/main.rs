//! `make readings` compares all 2^32 patterns of a reading, on two threads.

use readings::{Compared, probe_coordinate, second};
use std::process::ExitCode;
use std::thread;

const THREADS: u32 = 2;
/// The patterns of one sign and one exponent.
const BLOCK: u32 = 1 << 23;
const BLOCKS: u32 = 1 << 9;

/// One block in so many as there are threads, from this one on: all sizes take turns.
fn compare(first: u32) -> Compared {
    let mut compared = Compared::default();
    for block in (first..BLOCKS).step_by(THREADS as usize) {
        for fraction in 0..BLOCK {
            compared.compare(block * BLOCK + fraction);
        }
    }
    compared
}

fn main() -> ExitCode {
    let mut all = Compared::default();
    thread::scope(|scope| {
        let threads = [0, 1].map(|first| scope.spawn(move || compare(first)));
        for thread in threads {
            all.add(&thread.join().expect("no comparison panics"));
        }
    });
    for pattern in &all.first {
        let (proved, second) = (probe_coordinate(*pattern), second(*pattern));
        println!("{pattern:08X}: {proved} proved, {second} by the second program");
    }
    println!("{} patterns compared, {} differ", all.patterns, all.differ);
    match (all.patterns, all.differ) {
        (0x1_0000_0000, 0) => ExitCode::SUCCESS,
        _ => ExitCode::FAILURE,
    }
}
