//! Tables for the check: read from documents, with one row rule broken, by other makers, of random words.
//!
//! `tables inputs` prints the cases: two bytes W, four bytes n and two bytes D, little endian, then the W words
//! of the table, little endian too, and the D bytes of data. `tables expected` prints a line for each: what the
//! check answers, and the number beside it.

#[path = "tables/broken.rs"]
mod broken;
#[path = "tables/edges.rs"]
mod edges;
#[path = "tables/makers.rs"]
mod makers;
#[path = "tables/parts.rs"]
mod parts;
#[path = "tables/random.rs"]
mod random;
#[path = "tables/right.rs"]
mod right;

pub use parts::{Case, Cases};
use reference::check::check;
use std::collections::HashSet;
use std::io::{stdout, Write};

fn main() -> std::io::Result<()> {
    match std::env::args().nth(1).as_deref() {
        Some("inputs") => stdout().write_all(&inputs()),
        Some("expected") => stdout().write_all(expected().as_bytes()),
        _ => {
            eprintln!("usage: tables inputs | expected");
            std::process::exit(2)
        }
    }
}

/// Every case once, under the name of its group.
pub fn groups() -> Vec<(&'static str, Cases)> {
    let mut groups = vec![
        ("read from documents", right::read_tables()),
        ("one rule broken", [broken::broken_rows(), edges::edges()].concat()),
        ("by other makers", makers::tables()),
        ("random words", random::tables()),
    ];
    let mut seen = HashSet::new();
    for (_, cases) in &mut groups {
        cases.retain(|case| seen.insert((case.table.clone(), case.n, case.data.clone())));
    }
    groups
}

fn cases() -> impl Iterator<Item = Case> {
    groups().into_iter().flat_map(|(_, cases)| cases)
}

/// The cases as the program reads them.
pub fn inputs() -> Vec<u8> {
    cases().flat_map(|case| input(&case)).collect()
}

fn input(case: &Case) -> Vec<u8> {
    let mut input = Vec::new();
    input.extend((case.table.len() as u16).to_le_bytes());
    input.extend(case.n.to_le_bytes());
    input.extend((case.data.len() as u16).to_le_bytes());
    input.extend(case.table.iter().flat_map(|word| word.to_le_bytes()));
    input.extend(&case.data);
    input
}

/// What the program has to print.
pub fn expected() -> String {
    cases().map(|case| answer(&case)).collect()
}

fn answer(case: &Case) -> String {
    match check(&case.table, case.n as usize, &case.data) {
        Ok(()) => format!("0 {}\n", case.n),
        Err(refusal) => format!("{} {}\n", refusal.number(), refusal.beside),
    }
}
