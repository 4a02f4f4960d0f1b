//! Unchecked tables in which a declaration's entries, value or end are broken.

use super::asks::{resolving, walked, Case, Cases};
use super::broken::{leaf_at, reference_at};
use super::parts::{array, declare, none, refer};
use reference::rows::{end, kind, Row};

pub fn walks() -> Cases {
    let mut cases = Vec::new();
    cases.extend(one_declaration());
    cases.extend(two_entries());
    cases.extend(counts());
    cases.extend(changed());
    cases
}

const MOST: u32 = u32::MAX;
const ENDS: [u32; 7] = [0, 1, 2, 3, 4, 5, MOST];

/// A declaration at row 0, an entry at row 1, leaves behind them, all used or all but one: every end of both,
/// several counts. Each value is right that is below n and the declaration's end, past entries with rising ends.
fn one_declaration() -> Cases {
    let mut cases = Vec::new();
    for (last, first) in ENDS.into_iter().flat_map(|last| ENDS.map(|first| (last, first))) {
        for count in [0, 1, 2, 3, 4, MOST] {
            let mut rows: Vec<Row> = (0..4).map(leaf_at).collect();
            rows[0] = [kind::DECLARATION, last, count, 0, 0, 0];
            rows[1][1] = first;
            for n in [3, 4] {
                let good = match count {
                    0 => 1 < last,
                    1 => 1 < first && first < last.min(n),
                    2 => 2 == first && 3 < last.min(n),
                    _ => false,
                };
                let mut asks = vec![resolving(0).meaning(if good { 0 } else { 12 })];
                asks.extend((1..5).map(resolving));
                cases.push(Case::new(&rows, asks).of(n as usize));
            }
        }
    }
    cases
}

/// A declaration at row 2 of two entries, with every end of the second; a reference to it behind, and one before.
fn two_entries() -> Cases {
    let mut cases = Vec::new();
    for (last, second) in (0..=8).chain([MOST]).flat_map(|last| (0..=8).chain([MOST]).map(move |end| (last, end))) {
        let mut rows: Vec<Row> = (0..8).map(leaf_at).collect();
        rows[1] = reference_at(1, 2);
        rows[2] = [kind::DECLARATION, last, 2, 0, 0, 0];
        rows[4][1] = second;
        rows[7] = reference_at(7, 2);
        // At row 7 the value would be the reference, which leads back.
        let good = 4 < second && second < last.min(7);
        let number = if good { 0 } else { 12 };
        let mut asks = vec![resolving(1).meaning(12), resolving(2).meaning(number), resolving(7).meaning(number)];
        asks.extend([3, 4, 5, 6, 8].map(resolving));
        cases.push(Case::new(&rows, asks));
    }
    cases
}

/// Every count over so many leaves, huge ones too: the value is the row behind that many, if there is one.
fn counts() -> Cases {
    let mut cases = Vec::new();
    for n in [1, 2, 5, 40, 256] {
        let counts = (0..6).chain([38, 39, 40, 253, 254, 255, 256, 1 << 16, 1 << 24, 1 << 31, MOST - 1, MOST]);
        for count in counts {
            let mut rows: Vec<Row> = (0..n).map(leaf_at).collect();
            rows[0] = [kind::DECLARATION, n as u32, count, 0, 0, 0];
            let good = (count as usize) < n - 1;
            let mut asks = vec![resolving(0).meaning(if good { 0 } else { 12 })];
            asks.extend([n - 1, n].map(resolving));
            // The largest tables only at the edge.
            if n < 256 || (253..=256).contains(&count) || count == MOST {
                cases.push(Case::new(&rows, asks));
            }
        }
    }
    cases
}

/// Declarations in declarations, with each word of each row changed in several ways.
fn changed() -> Cases {
    let tables = [
        declare(&[declare(&[none()], refer(0, 2))], refer(0, 1)),
        declare(&[none(), array(&[none()])], declare(&[refer(0, 1)], array(&[none(), none()]))),
        array(&[declare(&[array(&[])], refer(0, 2)), declare(&[array(&[none()]), none()], refer(1, 7))]),
    ];
    let mut cases = Vec::new();
    for rows in tables {
        for (row, word) in (0..rows.len()).flat_map(|row| [0, 1, 2, 3].map(|word| (row, word))) {
            for number in numbers(&rows, row, word) {
                let mut rows = rows.clone();
                rows[row][word] = number;
                let asks = walked(rows.as_flattened(), rows.len());
                cases.push(Case::new(&rows, asks));
            }
        }
    }
    cases
}

/// What to put there instead.
fn numbers(rows: &[Row], row: usize, word: usize) -> Vec<u32> {
    let (n, old) = (rows.len() as u32, rows[row][word]);
    let numbers = match (word, rows[row][0]) {
        (0, _) => vec![0, kind::NONE, kind::REFERENCE, kind::DECLARATION],
        (1, _) => vec![0, row as u32, row as u32 + 1, end(&rows[row]) as u32 + 1, n, n + 1, MOST],
        (2, kind::DECLARATION) => vec![0, old + 1, old + 2, MOST],
        (3, kind::REFERENCE) => vec![0, old + 1, row as u32 - 1, row as u32, n - 1, n, MOST],
        _ => vec![],
    };
    numbers.into_iter().filter(|number| *number != old).collect()
}
