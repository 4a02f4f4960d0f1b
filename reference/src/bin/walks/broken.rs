//! Unchecked tables in which references lead nowhere, round, or far.

use super::asks::{judged, resolving, steps, walked, Ask, Case, Cases, Op};
use super::parts::{array, declare, none, refer};
use reference::rows::{kind, Row};

pub fn walks() -> Cases {
    let mut cases = Vec::new();
    cases.extend(entries());
    cases.extend(landings());
    cases.extend(cycles());
    cases.extend(chains());
    cases.extend(shortened());
    cases
}

fn along(row: usize, bound: usize) -> Ask {
    Ask::new(Op::Along, row as u32, bound as u32)
}

/// A leaf's row, by its number.
pub fn leaf_at(row: usize) -> Row {
    [kind::NONE, row as u32 + 1, 0, 0, 0, 0]
}

/// A reference's row, by its number, to any row at all.
pub fn reference_at(row: usize, entry: u32) -> Row {
    [kind::REFERENCE, row as u32 + 1, 0, entry, 0, 0]
}

/// "along to a row not below the reference, is 12": every entry for a reference at every row, in used rows or in
/// rows behind them; the number and the other words are not asked about.
fn entries() -> Cases {
    let mut cases = Vec::new();
    for (n, lent) in [(1, 1), (2, 2), (4, 4), (4, 6), (7, 7)] {
        for row in 0..n {
            for entry in (0..=lent as u32 + 1).chain([1 << 31, u32::MAX - 1, u32::MAX]) {
                let mut rows: Vec<Row> = (0..lent).map(leaf_at).collect();
                rows[row] = reference_at(row, entry);
                rows[row][2] = entry.wrapping_mul(7);
                rows[row][4] = entry;
                let number = if (entry as usize) < row { 0 } else { 12 };
                let mut asks: Vec<Ask> = (row + 1..=n).map(|bound| along(row, bound).meaning(number)).collect();
                asks.push(resolving(row).meaning(number));
                asks.extend((0..lent).filter(|other| *other != row).map(resolving));
                asks.extend(steps(row, n));
                cases.push(Case::new(&rows, asks).of(n));
            }
        }
    }
    cases
}

/// Along to a row whose end is nonsense is accepted, and every step from there is 12. Resolving hands it back.
fn landings() -> Cases {
    let mut cases = Vec::new();
    for n in [2, 3, 5] {
        for (entry, row) in (1..n).flat_map(|row| (0..row).map(move |entry| (entry, row))) {
            for last in (0..=n + 1).chain([1 << 31, u32::MAX as usize]) {
                let mut rows: Vec<Row> = (0..n).map(leaf_at).collect();
                rows[row] = reference_at(row, entry as u32);
                rows[entry][1] = last as u32;
                let mut asks = vec![along(row, row + 1).meaning(0), along(row, n).meaning(0)];
                asks.push(resolving(row).meaning(0));
                asks.extend(judged(entry, last, (entry + 1..=n).contains(&last)));
                asks.extend(steps(entry, n));
                cases.push(Case::new(&rows, asks));
            }
        }
    }
    cases
}

/// Ways round: from a declaration to its value, and along back to it, with more on the way.
fn cycles() -> Cases {
    let round = |table: Vec<Row>| {
        let asks = walked(table.as_flattened(), table.len());
        Case::new(&table, asks)
    };
    let mut cases = Vec::new();
    for entries in [0, 1, 3] {
        // 0, its value, 0; and through declarations as values of declarations.
        for levels in [1, 2, 4] {
            let mut table = refer(9, 0);
            for _ in 0..levels {
                table = declare(&vec![none(); entries], table);
            }
            for back in 0..table.len() {
                let last = table.len() - 1;
                table[last][3] = back as u32;
                cases.push(round(table.clone()));
            }
        }
    }
    // References that name each other, themselves, and each the next one.
    let pairs: [&[u32]; 8] = [&[0], &[1, 0], &[0, 1], &[1, 2, 0], &[2, 0, 1], &[0, 0, 0], &[1, 1, 1], &[3, 2, 1, 0]];
    for entries in pairs {
        let rows = Vec::from_iter(entries.iter().enumerate().map(|(row, entry)| reference_at(row, *entry)));
        cases.push(round(rows.clone()));
        cases.push(round(array(&rows.iter().map(|row| refer(0, row[3] + 1)).collect::<Vec<_>>())));
    }
    cases
}

/// Row i refers to row i - 1: from the last one n - 1 moves, which is as many as there may be. With a declaration
/// at row 0 whose value is row 1, the n-th move leads on, unless row 1 is the end.
fn chains() -> Cases {
    let mut cases = Vec::new();
    for n in [1, 2, 3, 4, 5, 6, 17, 64, 256] {
        let mut rows: Vec<Row> = (0..n).map(|row| reference_at(row, row.saturating_sub(1) as u32)).collect();
        let all = |number: u32| (0..n).map(|row| resolving(row).meaning(number)).collect();
        rows[0] = leaf_at(0);
        cases.push(Case::new(&rows, all(0)));
        // Fewer of them used, and one lent too few.
        for used in [n / 2, n - 1] {
            let asks = (0..n).map(|row| resolving(row).meaning(if row < used { 0 } else { 12 })).collect();
            cases.push(Case::new(&rows, asks).of(used));
        }
        cases.push(Case::new(&rows, all(12)).of(n + 1));
        rows[0] = reference_at(0, 0);
        cases.push(Case::new(&rows, all(12)));
        rows[0] = [kind::DECLARATION, n as u32, 0, 0, 0, 0];
        cases.push(Case::new(&rows, all(12)));
        if n > 2 {
            rows[1] = leaf_at(1);
            rows[2] = reference_at(2, 0);
            cases.push(Case::new(&rows, all(0)));
        }
    }
    cases
}

/// A right table of declarations and references with each n, and with all words, just those of n rows, or one less.
fn shortened() -> Cases {
    let rows = declare(
        &[none(), refer(0, 1), declare(&[array(&[none()])], refer(0, 4))],
        array(&[refer(2, 3), refer(1, 2), declare(&[none()], refer(0, 11))]),
    );
    let table = rows.as_flattened();
    let mut cases = Vec::new();
    for n in (0..rows.len() + 2).chain([1 << 24, 1 << 31, u32::MAX as usize]) {
        for words in [table.len(), table.len() - 1, 6 * n.min(rows.len()), (6 * n.min(rows.len())).saturating_sub(1)] {
            let lent = table[..words].to_vec();
            let asks = walked(&lent, n);
            cases.push(Case { table: lent, n: n as u32, data: Vec::new(), asks });
        }
    }
    cases
}
