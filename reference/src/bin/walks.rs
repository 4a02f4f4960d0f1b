//! Walks: over right tables, from forged standings, over unchecked tables with broken moves, over random words.
//!
//! `walks inputs` prints the cases: two bytes W, four bytes n, two bytes D and two bytes Q, then the W words of the
//! table, the D bytes of data, and Q asks: one byte op (0 in, 1 on, 2 along, 3 resolve, 4 payload), four bytes row
//! and four bytes bound; all numbers little endian. `walks expected` prints a line for each ask: number, row and
//! bound of a step, and behind them the moves of resolving; or the size and the bytes of a payload.

#[path = "walks/asks.rs"]
mod asks;
#[path = "walks/broken.rs"]
mod broken;
#[path = "walks/declared.rs"]
mod declared;
#[path = "walks/documents.rs"]
mod documents;
#[path = "walks/forged.rs"]
mod forged;
#[allow(dead_code)]
#[path = "tables/parts.rs"]
mod parts;
#[path = "walks/payloads.rs"]
mod payloads;
#[path = "walks/random.rs"]
mod random;
#[allow(dead_code)]
#[path = "tables/right.rs"]
mod right;

pub use asks::{Ask, Case, Cases, Op};
use reference::refusal::Refusal;
use reference::walk::{along, on, payload, resolve, step_in, Resolved, Standing};
use std::collections::HashSet;
use std::fmt::Write as _;
use std::io::{stdout, Write};

fn main() -> std::io::Result<()> {
    match std::env::args().nth(1).as_deref() {
        Some("inputs") => stdout().write_all(&inputs()),
        Some("expected") => stdout().write_all(expected().as_bytes()),
        _ => {
            eprintln!("usage: walks inputs | expected");
            std::process::exit(2)
        }
    }
}

/// The most asks of one case.
const MOST: usize = 512;

/// Every case once, under the name of its group, none with too many asks.
pub fn groups() -> Vec<(&'static str, Cases)> {
    let mut groups = vec![
        ("right tables", documents::walks()),
        ("forged standings", forged::walks()),
        ("broken moves", [broken::walks(), declared::walks()].concat()),
        ("payloads", payloads::walks()),
        ("random words", random::walks()),
    ];
    let mut seen = HashSet::new();
    for (_, cases) in &mut groups {
        *cases = cases.iter().flat_map(|case| case.parted(MOST)).collect();
        cases.retain(|case| seen.insert(input(case)));
    }
    groups
}

fn cases() -> impl Iterator<Item = Case> {
    groups().into_iter().flat_map(|(_, cases)| cases)
}

/// The cases as the program reads them.
pub fn inputs() -> Vec<u8> {
    cases().flat_map(|case| input(&case)).collect()
}

fn input(case: &Case) -> Vec<u8> {
    let mut input = Vec::new();
    input.extend((case.table.len() as u16).to_le_bytes());
    input.extend(case.n.to_le_bytes());
    input.extend((case.data.len() as u16).to_le_bytes());
    input.extend((case.asks.len() as u16).to_le_bytes());
    input.extend(case.table.iter().flat_map(|word| word.to_le_bytes()));
    input.extend(&case.data);
    for ask in &case.asks {
        input.push(ask.op as u8);
        input.extend(ask.row.to_le_bytes());
        input.extend(ask.bound.to_le_bytes());
    }
    input
}

/// What the program has to print.
pub fn expected() -> String {
    cases().flat_map(|case| Vec::from_iter(case.asks.iter().map(|ask| answer(&case, ask)))).collect()
}

/// The line for one ask.
pub fn answer(case: &Case, ask: &Ask) -> String {
    let (table, n) = (&case.table[..], case.n as usize);
    let standing = Standing { row: ask.row as usize, bound: ask.bound as usize };
    match ask.op {
        Op::In => stepped(step_in(table, n, standing)),
        Op::On => stepped(on(table, n, standing)),
        Op::Along => stepped(along(table, n, standing)),
        Op::Resolve => match resolve(table, n, standing.row) {
            Ok(Resolved { row, bound, moves }) => format!("0 {row} {bound} {moves}\n"),
            Err(refusal) => format!("{} 0 0 0\n", refusal.number()),
        },
        Op::Payload => shown(payload(table, standing.row, &case.data)),
    }
}

fn stepped(answer: Result<Standing, Refusal>) -> String {
    match answer {
        Ok(Standing { row, bound }) => format!("0 {row} {bound}\n"),
        Err(refusal) => format!("{} 0 0\n", refusal.number()),
    }
}

fn shown(payload: &[u8]) -> String {
    let mut line = payload.len().to_string();
    payload.iter().for_each(|byte| write!(line, " {byte:02x}").unwrap());
    line + "\n"
}
