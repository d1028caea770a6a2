//! Programs are timed in turns, so that what else the machine does falls on all alike.

use crate::clock;

/// Something to be timed on a task.
pub trait Program<T> {
    /// What has to stand ready; not timed.
    fn prepare(&mut self, _: &T) {}

    fn run(&mut self, task: &T);
}

impl<T, F: FnMut(&T)> Program<T> for F {
    fn run(&mut self, task: &T) {
        self(task);
    }
}

pub fn median(mut times: Vec<f64>) -> f64 {
    times.sort_by(f64::total_cmp);
    times[times.len() / 2]
}

fn time<T>(program: &mut dyn Program<T>, task: &T) -> f64 {
    program.prepare(task);
    let began = clock::now();
    program.run(task);
    (clock::now() - began).as_secs_f64() * 1e6
}

/// Microseconds of each program for a task: means over the tasks of medians over the repeats.
pub fn take<T, const N: usize>(
    repeats: usize,
    tasks: &[T],
    programs: [&mut dyn Program<T>; N],
) -> [f64; N] {
    mean(&medians(repeats, tasks, programs))
}

/// Microseconds of each program for each task: medians over the repeats.
pub fn medians<T, const N: usize>(
    repeats: usize,
    tasks: &[T],
    mut programs: [&mut dyn Program<T>; N],
) -> Vec<[f64; N]> {
    let mut times = vec![[const { Vec::new() }; N]; tasks.len()];
    for _ in 0..repeats {
        for (task, times) in tasks.iter().zip(&mut times) {
            for (program, times) in programs.iter_mut().zip(times) {
                times.push(time(*program, task));
            }
        }
    }
    times.into_iter().map(|times| times.map(median)).collect()
}

/// Of each program's times over the tasks.
pub fn mean<const N: usize>(times: &[[f64; N]]) -> [f64; N] {
    std::array::from_fn(|program| {
        let sum: f64 = times.iter().map(|times| times[program]).sum();
        sum / times.len() as f64
    })
}
