//! Times: nine rounds, all tasks in turn in each, the best of each task.

use crate::others::seconds;

const ROUNDS: usize = 9;
/// A task is repeated until it takes this long, in seconds.
const LEAST: f64 = 0.02;

pub type Task<'a> = Box<dyn FnMut() + 'a>;

/// The best time of each task, in seconds. Tasks take turns, so that a busy moment of the machine hits all of them.
pub fn best(tasks: &mut [Task]) -> Vec<f64> {
    let repeats: Vec<u32> = tasks
        .iter_mut()
        .map(|task| {
            task();
            let once = spent(task, 1);
            (LEAST / once).ceil().clamp(1.0, 1e6) as u32
        })
        .collect();
    let mut best = vec![f64::MAX; tasks.len()];
    for _ in 0..ROUNDS {
        for ((task, repeats), best) in tasks.iter_mut().zip(&repeats).zip(&mut best) {
            *best = best.min(spent(task, *repeats) / *repeats as f64);
        }
    }
    best
}

fn spent(task: &mut Task, repeats: u32) -> f64 {
    let start = seconds();
    (0..repeats).for_each(|_| task());
    seconds() - start
}

/// The load of the last minute.
pub fn load() -> String {
    let load = std::fs::read_to_string("/proc/loadavg").unwrap_or_default();
    load.split(' ').next().unwrap_or("?").to_string()
}

pub fn milliseconds(seconds: f64) -> String {
    number(seconds * 1e3)
}

pub fn ratio(ratio: f64) -> String {
    number(ratio)
}

fn number(number: f64) -> String {
    if number.is_nan() {
        "-".to_string()
    } else {
        format!("{number:.2}")
    }
}
