//! Forged standings of each kind, beside good ones.

use super::asks::{judged, reached, Ask, Case, Cases};
use super::parts::{bytes, rows_of};
use reference::rows::{end, kind, Row};

pub fn walks() -> Cases {
    let mut cases = Vec::new();
    for rows in tables() {
        cases.push(every_standing(&rows));
        cases.push(outside(&rows));
        cases.extend(too_few_rows(&rows));
        cases.extend(fewer_used(&rows));
        cases.extend(wrong_ends(&rows));
    }
    cases
}

/// Right tables of a few rows, of every shape.
fn tables() -> Vec<Vec<Row>> {
    let lines = "02|09 00|a0 02|a1 02 01|a1 a0 02 01|a1 02 a0 01|a0 a0 a0 02|b0 01 6b 02|b8 a0 02 b0 00 01|\
        0d 0d 01 02 c1|0d 0d 02 44 c1 c2|0d 0d 01 0d 0d 01 02 c1 c1|0d 0d 01 a0 02 a2 c1 02 c1|0d 00 02 a0 02|\
        a1 0d 0d 01 02 c1 0d 00 02 81 61";
    lines.split('|').map(|document| rows_of(&bytes(document))).collect()
}

/// Numbers that no row or bound of these tables has.
const HUGE: [usize; 6] = [1 << 24, (1 << 31) - 1, 1 << 31, (1 << 32) - 6, (1 << 32) - 2, (1 << 32) - 1];

/// Every row with every bound: 12 unless the bound is from the row's end to n.
fn every_standing(rows: &[Row]) -> Case {
    let n = rows.len();
    let mut asks = Vec::new();
    for (row, bound) in (0..n).flat_map(|row| (0..=n + 2).map(move |bound| (row, bound))) {
        let good = (end(&rows[row])..=n).contains(&bound);
        asks.extend(judged(row, bound, good));
    }
    Case::new(rows, asks)
}

/// A row not below n, or a bound far above it. The row behind the used ones would be a good one.
fn outside(rows: &[Row]) -> Case {
    let n = rows.len();
    let mut asks = Vec::new();
    for row in (n..n + 3).chain(HUGE) {
        let bounds = [0, n, row, row + 1, row + 2, u32::MAX as usize];
        asks.extend(forged(bounds.into_iter().map(|bound| (row, bound))));
    }
    asks.extend(forged((0..n).flat_map(|row| HUGE.map(|bound| (row, bound)))));
    let behind = [kind::NONE, n as u32 + 1, 0, 0, 0, 0];
    Case::new(&[rows, &[behind]].concat(), asks).of(n)
}

/// All these standings, as far as their numbers fit.
fn forged(standings: impl Iterator<Item = (usize, usize)>) -> impl Iterator<Item = Ask> {
    let fits = |&(row, bound): &(usize, usize)| row.max(bound) <= u32::MAX as usize;
    standings.filter(fits).flat_map(|(row, bound)| judged(row, bound, false))
}

/// A table of fewer than n rows: words cut off, or n too large. All that was good is forged.
fn too_few_rows(rows: &[Row]) -> Cases {
    let n = rows.len();
    let table = rows.as_flattened();
    let good: Vec<(usize, usize)> = reached(table, n).iter().map(|at| (at.row, at.bound)).collect();
    let asks = |more: &[(usize, usize)]| Vec::from_iter(forged(good.iter().chain(more).copied()));
    let mut cases = Vec::new();
    for words in [0, 1, 5, 6 * n - 6, 6 * n - 5, 6 * n - 1] {
        let asks = asks(&[(n - 1, n), (n - 1, n + 1), (n, n + 1)]);
        cases.push(Case { table: table[..words].to_vec(), n: n as u32, data: Vec::new(), asks });
    }
    for more in [n + 1, n + 2, 1 << 24, 1 << 31, (1 << 32) - 1] {
        let asks = asks(&[(0, more), (n - 1, more), (n, n + 1), (n, more), (more - 2, more), (more - 1, more)]);
        cases.push(Case::new(rows, asks.clone()).of(more));
        // One number short of a whole row more.
        let table = [table, &[kind::NONE, more as u32, 0, 0, 0]].concat();
        cases.push(Case { table, n: more as u32, data: Vec::new(), asks });
    }
    cases
}

/// Fewer rows used than a holder has: its end passes n. Rows that end in time are as good as before.
fn fewer_used(rows: &[Row]) -> Cases {
    let mut cases = Vec::new();
    for n in 0..rows.len() {
        let mut asks = Vec::new();
        for (row, bound) in (0..rows.len()).flat_map(|row| (0..=n + 1).map(move |bound| (row, bound))) {
            let good = row < n && (end(&rows[row])..=n).contains(&bound);
            asks.extend(judged(row, bound, good));
        }
        cases.push(Case::new(rows, asks).of(n));
    }
    cases
}

/// One row with another end: forged where it is not in row + 1..bound.
fn wrong_ends(rows: &[Row]) -> Cases {
    let n = rows.len();
    let mut cases = Vec::new();
    for row in 0..n {
        for last in (0..=n + 1).chain([1 << 31, u32::MAX as usize]).filter(|last| *last != end(&rows[row])) {
            let mut rows = rows.to_vec();
            rows[row][1] = last as u32;
            let asks = (row + 1..=n).flat_map(|bound| judged(row, bound, (row + 1..=bound).contains(&last)));
            cases.push(Case::new(&rows, asks.collect()));
        }
    }
    cases
}
