//! The proved library beside the reference implementation, over generated documents and tables, every operation.
//!
//!     differential quick            about ten seconds
//!     differential long [CASES]     a million cases or more, all texts of up to 4 bytes, all documents of up to 3, and the largest ones
//!     differential corpus FOLDER    every file of a corpus
//!     differential case SEED CASE   one case again, as a difference names it
//!     differential paper FOLDER     writes the paper's documents as inputs of the corpus
//!     differential seeds FOLDER     writes generated inputs, for the fuzzer to begin with

mod cases;
mod documents;
mod large;
mod seeds;
mod tables;
mod texts;

use compare::{Compare, Tally};
use std::sync::atomic::{AtomicU64, Ordering};
use std::time::{Duration, Instant};
use std::{env, process, thread};

const SEED: u64 = 20_261_115;

fn main() {
    let words: Vec<String> = env::args().skip(1).collect();
    let words: Vec<&str> = words.iter().map(String::as_str).collect();
    let number = |word: &str| word.parse::<u64>().unwrap_or_else(|_| usage());
    let start = Instant::now();
    let mut tally = Tally::default();
    match words[..] {
        ["quick"] => {
            texts::every(3);
            texts::longer(SEED, 200_000);
            tally.add(&cases::short(2));
            tally.add(&large::run(false));
            tally.add(&generated(SEED, u64::MAX, start + Duration::from_secs(10)));
        }
        ["long"] => long(&mut tally, SEED, 1_200_000),
        ["long", count] => long(&mut tally, SEED, number(count)),
        ["long", count, seed] => long(&mut tally, number(seed), number(count)),
        ["case", seed, case] => {
            let mut compare = Compare::default();
            cases::case(&mut compare, number(seed), number(case));
            tally.add(&compare.tally);
        }
        ["corpus", folder] => tally.add(&seeds::replay(folder)),
        ["seeds", folder] => return seeds::write(folder),
        ["paper", folder] => return seeds::paper(folder),
        _ => usage(),
    }
    println!(
        "answers, by operation (number: how often):\n{tally}{} calls in {:?}, no difference",
        tally.calls(),
        start.elapsed()
    );
}

fn long(tally: &mut Tally, seed: u64, cases: u64) {
    texts::every(4);
    texts::longer(seed, 5_000_000);
    tally.add(&cases::short(3));
    tally.add(&large::run(true));
    tally.add(&generated(seed, cases, Instant::now() + Duration::from_secs(86_400)));
}

/// Cases 0 to `count` of a seed, on every core, until a time.
fn generated(seed: u64, count: u64, until: Instant) -> Tally {
    let next = AtomicU64::new(0);
    let workers = thread::available_parallelism().map_or(1, |cores| cores.get());
    let mut tally = Tally::default();
    thread::scope(|scope| {
        let work = || {
            let mut compare = Compare::default();
            while Instant::now() < until {
                let from = next.fetch_add(100, Ordering::Relaxed);
                if from >= count {
                    break;
                }
                (from..count.min(from + 100)).for_each(|case| cases::case(&mut compare, seed, case));
            }
            compare.tally
        };
        let workers: Vec<_> = (0..workers).map(|_| scope.spawn(work)).collect();
        for worker in workers {
            tally.add(&worker.join().unwrap_or_else(|_| process::exit(1)));
        }
    });
    println!("seed {seed}: {} generated cases", next.into_inner().min(count));
    tally
}

fn usage() -> ! {
    eprintln!("usage: differential quick | long [CASES [SEED]] | corpus FOLDER | case SEED CASE | paper FOLDER | seeds FOLDER");
    process::exit(2)
}
