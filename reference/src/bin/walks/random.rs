//! Random words, and right tables with one word changed at random, with everything asked of them and more.

use super::asks::{everything, payload_of, resolving, steps, Case, Cases};
use super::documents::declaration;
use super::parts::rows_of;
use super::right::{holders, random_document};
use reference::generate::Random;
use reference::rows::{kind, lent, Row};
use std::collections::HashSet;

pub fn walks() -> Cases {
    let mut random = Random::new(53);
    let mut cases: Cases = (0..300).map(|_| random_rows(&mut random)).collect();
    cases.extend((0..50).map(|_| random_words(&mut random)));
    let holders = holders();
    for at in 0..400 {
        let document = match at % 3 {
            0 => holders[random.below(holders.len())].clone(),
            1 => random_document(&mut random),
            _ => declaration(&mut random, 6),
        };
        cases.push(changed(&document, &mut random));
    }
    cases
}

/// Rows that are mostly references and declarations, with small numbers, right ones more often than not.
fn random_rows(random: &mut Random) -> Case {
    let lent = 1 + random.below(9);
    let rows: Vec<Row> = (0..lent).map(|row| random_row(row, lent, random)).collect();
    let n = if random.below(8) == 0 { random.below(lent + 2) } else { lent };
    let length = random.below(10);
    let data = random.bytes(length);
    asked(rows.as_flattened().to_vec(), n, data, random)
}

fn random_row(row: usize, n: usize, random: &mut Random) -> Row {
    let number = |random: &mut Random| match random.below(12) {
        0 => random.number() as u32 >> random.below(32),
        _ => random.below(n + 1) as u32,
    };
    let last = match random.below(8) {
        0 => number(random),
        1 | 2 => (row + 1 + random.below(n - row)) as u32,
        3 | 4 => n as u32,
        _ => row as u32 + 1,
    };
    let entry = if row > 0 && random.below(6) > 0 { random.below(row) as u32 } else { number(random) };
    match random.below(8) {
        0..=2 => [kind::REFERENCE, last, number(random), entry, 0, 0],
        3 | 4 => [kind::DECLARATION, last, random.below(3) as u32, 0, 0, 0],
        5 => [random.below(19) as u32, last, number(random), number(random), 0, 0],
        6 => {
            let kind = random.one_of(&[kind::FLOAT, kind::TEXT, kind::BINARY, kind::KEY]);
            [kind, last, entry, random.below(4) as u32, 0, 0]
        }
        _ => [kind::NONE, last, 0, 0, 0, 0],
    }
}

/// Words of any size; n is any number of rows, or more.
fn random_words(random: &mut Random) -> Case {
    let words = random.below(40);
    let shift = random.below(32);
    let table: Vec<u32> = (0..words).map(|_| random.number() as u32 >> random.one_of(&[shift, 27, 29, 30])).collect();
    let n = match random.below(8) {
        0 => 0,
        1 => words / 6 + 1,
        2 => random.number() as u32 as usize,
        _ => words / 6,
    };
    let length = random.below(10);
    let data = random.bytes(length);
    asked(table, n, data, random)
}

/// A document's table with one word changed, and now and then another n.
fn changed(document: &[u8], random: &mut Random) -> Case {
    let mut rows = rows_of(document);
    let (at, word) = (random.below(rows.len()), random.one_of(&[0, 1, 1, 2, 2, 3, 3]));
    let old = rows[at][word];
    rows[at][word] = match random.below(7) {
        0 => old.wrapping_add(1),
        1 => old.wrapping_sub(1),
        2 => random.one_of(&[kind::REFERENCE, kind::DECLARATION, kind::TEXT, kind::KEY, 0]),
        3 => random.below(rows.len() + 2) as u32,
        4 => rows[random.below(rows.len())][word],
        5 => rows[random.below(rows.len())][random.below(6)],
        _ => random.number() as u32 >> random.below(32),
    };
    let n = if random.below(10) == 0 { random.below(rows.len() + 2) } else { rows.len() };
    asked(rows.as_flattened().to_vec(), n, document.to_vec(), random)
}

/// Everything, and some standings and rows at random.
fn asked(table: Vec<u32>, n: usize, data: Vec<u8>, random: &mut Random) -> Case {
    let mut asks = everything(&table, n);
    let rows = lent(&table).len();
    for _ in 0..4 {
        let row = random_number(rows, random);
        let bound = if random.below(2) == 0 { n } else { random_number(rows, random) };
        asks.extend(steps(row, bound));
    }
    let row = random_number(rows, random);
    asks.extend([resolving(row), payload_of(row)]);
    let mut seen = HashSet::new();
    asks.retain(|ask| seen.insert(*ask));
    Case { table, n: n as u32, data, asks }
}

fn random_number(rows: usize, random: &mut Random) -> usize {
    match random.below(10) {
        0 => random.number() as u32 as usize >> random.below(32),
        _ => random.below(rows + 2),
    }
}
